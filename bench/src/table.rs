//! The table of what an event costs.
use crate::timing::SINGLE;

/// What was measured of a case, on each side: the nanoseconds and the instructions for an event.
pub struct Row {
    pub case: &'static str,
    pub times: [f64; 3],
    pub instructions: [Option<f64>; 3],
}

const HEADS: [&str; 9] = [
    "load",
    "proved ns",
    "plain ns",
    "ratio",
    "tuned ns",
    "ratio",
    "proved instr",
    "plain instr",
    "tuned instr",
];

pub fn print_head() {
    println!("| {} |", HEADS.join(" | "));
    println!("{}|", "|-".repeat(HEADS.len()));
}

impl Row {
    pub fn print(&self) {
        let [proved, plain, tuned] = self.times;
        println!(
            "| {} | {proved:.1} | {plain:.1} | {:.2} | {tuned:.1} | {:.2} | {} |",
            label(self.case),
            proved / plain,
            proved / tuned,
            self.instructions.map(count).join(" | ")
        );
    }
}

/// How a case is called in the table.
fn label(case: &str) -> &str {
    match case {
        SINGLE => "busy one by one",
        _ => case,
    }
}

fn count(instructions: Option<f64>) -> String {
    instructions.map_or("-".into(), |n| format!("{n:.0}"))
}
