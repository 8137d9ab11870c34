//! What a week of steps takes: long runs of the proved code, and a week at their speed.
use crate::count;
use crate::loads;
use crate::side::Side;
use crate::timing::Case;

/// The steps of a week, one each 20 nanoseconds.
const WEEK: f64 = 604_800.0 * 50_000_000.0;
const DAY: f64 = 86_400.0;

/// How often a run has its load: of quiet steps a round of the prescaler, in which each tick comes as
/// often as in a week. The time of each tenth is taken.
const PASSES: usize = 500_000_000 / loads::LENGTH;
const TENTHS: usize = 10;

/// The loads that are run: nothing but the clock moves, and six channels at work.
const NAMES: [&str; 2] = ["quiet", "busy"];

/// Prints a row for each run.
pub fn print() -> Result<(), String> {
    println!("| run | steps | seconds | ns a step | best tenth | instructions | days for a week |");
    println!("|-|-|-|-|-|-|-|");
    for name in NAMES {
        let case = Case::new(name).ok_or(format!("no load {name}"))?;
        print_run(name, case);
    }
    println!("\nA step's time and instructions have their part of the calls among the steps; the week is by");
    println!("the best tenth of the run.");
    Ok(())
}

fn print_run(name: &str, mut case: Case) {
    let (events, steps) = (case.events(), case.steps());
    let seconds = case.long_run(TENTHS, PASSES / TENTHS);
    let total: f64 = seconds.iter().sum();
    let least = seconds.iter().copied().fold(f64::MAX, f64::min);
    let ns = total * 1e9 / (steps * PASSES) as f64;
    let best = least * 1e9 / (steps * PASSES / TENTHS) as f64;
    let days = best * 1e-9 * WEEK / DAY;
    let instructions = count::of_case(name, Side::Proved).map_or("-".into(), |of_event| {
        format!("{:.0}", of_event * events as f64 / steps as f64)
    });
    println!(
        "| {name} | {} | {total:.1} | {ns:.1} | {best:.1} | {instructions} | {days:.1} |",
        steps * PASSES
    );
}
