//! Compares the proved board with two Rust models of the same machine, event by event, then
//! measures all three.
//!
//!     bench                      compares, then times and counts everything; the exit status is 1
//!                                if a case takes more instructions than the file limits allows
//!     bench quick                compares, then times the loads that have steps
//!     bench compare [SEED [N]]   compares N random histories, from that seed on
//!     bench week                 times long runs of quiet and of busy steps, and tells what a week
//!                                of them takes
//!     bench vectors DIR          compares what the Rust program prints with recorded logs
//!     bench count CASE SIDE N    runs the first N events of a case once; SIDE is proved, plain or
//!                                tuned
//!     bench log MODEL            prints the answers to a block file, as boardlog does; MODEL is
//!                                plain or tuned
//!     bench audit MODEL          prints the accounts of the captures of a block file, a line for
//!                                each channel
//!     bench room                 compares what is told of histories beforehand with their files and
//!                                logs, and tells what a record costs, beside boardpack
//!     bench room N               asks for N records once
//!     bench rows                 makes an old block file, stored by row, of the records on standard
//!                                input
#![deny(unsafe_code)]

mod audit;
mod blocks;
mod boardlog;
mod compare;
mod count;
mod event;
mod histories;
mod limits;
mod loads;
mod log;
mod model;
#[allow(unsafe_code)]
mod proved;
mod random;
mod room;
mod side;
mod table;
mod timing;
mod week;

use blocks::Form;
use model::channel::Mode;
use model::{Plain, Tuned};
use side::{Side, SIDES};
use std::io::{Read, Write};
use std::path::{Path, PathBuf};
use std::process::ExitCode;
use table::Row;
use timing::Case;

const SEED: u64 = 1;
const ROUNDS: usize = 15;
const QUICK_ROUNDS: usize = 8;

fn main() -> ExitCode {
    let arguments: Vec<String> = std::env::args().skip(1).collect();
    let arguments: Vec<&str> = arguments.iter().map(String::as_str).collect();
    let done = match arguments[..] {
        [] => all(),
        ["quick"] => quick(),
        ["compare"] => compared(SEED, compare::HISTORIES),
        ["compare", seed] => number(seed).and_then(|seed| compared(seed, compare::HISTORIES)),
        ["compare", seed, n] => number(seed).and_then(|seed| compared(seed, number(n)?)),
        ["week"] => week::print(),
        ["vectors", folder] => vectors(folder),
        ["count", case, side, n] => count_once(case, side, n),
        ["log", Plain::NAME] => log::<Plain>(),
        ["log", Tuned::NAME] => log::<Tuned>(),
        ["audit", Plain::NAME] => audit::<Plain>(),
        ["audit", Tuned::NAME] => audit::<Tuned>(),
        ["room"] => folder().and_then(|folder| room::print(&folder)),
        ["room", n] => number(n).and_then(|n| room::ask(n as usize)),
        ["rows"] => rows(),
        _ => Err("usage: see the head of bench/src/main.rs".into()),
    };
    match done {
        Ok(()) => ExitCode::SUCCESS,
        Err(message) => {
            eprintln!("{message}");
            ExitCode::FAILURE
        }
    }
}

fn all() -> Result<(), String> {
    compared(SEED, compare::HISTORIES)?;
    let mut rows = times(&timing::CASES, ROUNDS)?;
    table::print_head();
    for row in &mut rows {
        row.instructions = SIDES.map(|side| count::of_case(row.case, side));
        row.print();
    }
    let program = program()?;
    if let Some(row) = &program {
        row.print();
    }
    explain(ROUNDS);
    match program {
        Some(row) => {
            explain_program(&row);
            rows.push(row);
        }
        None => println!("boardlog is not built, so it is not measured."),
    }
    limited(&rows)
}

fn quick() -> Result<(), String> {
    compared(SEED, compare::HISTORIES)?;
    let rows = times(&timing::STEP_CASES, QUICK_ROUNDS)?;
    table::print_head();
    for row in rows {
        row.print();
    }
    explain(QUICK_ROUNDS);
    Ok(())
}

/// The rows of some cases, timed and not yet counted.
fn times(names: &[&'static str], rounds: usize) -> Result<Vec<Row>, String> {
    let mut cases = names
        .iter()
        .map(|name| case(name))
        .collect::<Result<Vec<_>, _>>()?;
    let times = timing::times(&mut cases, rounds);
    let row = |(&case, times)| Row {
        case,
        times,
        instructions: [None; 3],
    };
    Ok(names.iter().zip(times).map(row).collect())
}

/// The row of the programs, if boardlog is built.
fn program() -> Result<Option<Row>, String> {
    let Some(program) = boardlog::program("boardlog") else {
        return Ok(None);
    };
    boardlog::measure(&program, &folder()?).map(Some)
}

/// Where the files stand that programs are measured on.
fn folder() -> Result<PathBuf, String> {
    let here = std::env::current_exe().map_err(|e| e.to_string())?;
    Ok(here.ancestors().nth(2).unwrap_or(Path::new(".")).into())
}

/// Tells each case that is above its limit.
fn limited(rows: &[Row]) -> Result<(), String> {
    if rows.iter().all(|row| row.instructions[0].is_none()) {
        println!("Without valgrind no instructions are counted, and bench/limits is not checked.");
    }
    let excesses: Vec<_> = rows
        .iter()
        .filter_map(|row| limits::excess(row.case, row.instructions[0]))
        .collect();
    if excesses.is_empty() {
        return Ok(());
    }
    Err(excesses.join("\n"))
}

/// How the table is read.
fn explain(rounds: usize) {
    println!(
        "\nFor one event; a time is the least of {rounds} rounds in which the sides take turns."
    );
    println!("A ratio is proved to model, of the least times within this run.");
}

fn explain_program(row: &Row) {
    let [proved, plain, tuned] = row.times.map(|ns| 1e9 / ns);
    println!(
        "boardlog: the least of {} runs of whole programs over {} events, with equal output;",
        boardlog::ROUNDS,
        boardlog::EVENTS
    );
    println!("{proved:.0} events a second, plain {plain:.0}, tuned {tuned:.0}.");
}

fn compared(seed: u64, histories: u64) -> Result<(), String> {
    let events = compare::compare::<Plain>(seed, histories)?;
    compare::compare::<Tuned>(seed, histories)?;
    println!(
        "Equal answers and boards, proved, plain and tuned, on the loads and on {events} events"
    );
    println!("of {histories} random histories.\n");
    Ok(())
}

fn vectors(folder: &str) -> Result<(), String> {
    let compared = boardlog::vectors::<Plain>(Path::new(folder))?;
    boardlog::vectors::<Tuned>(Path::new(folder))?;
    println!("{compared} histories, all as recorded, plain and tuned");
    Ok(())
}

fn count_once(name: &str, side: &str, n: &str) -> Result<(), String> {
    let side = Side::named(side)?;
    let n = number(n)? as usize;
    if n > loads::LENGTH {
        return Err(format!("a load has {} events", loads::LENGTH));
    }
    case(name)?.pass(side, n);
    Ok(())
}

fn rows() -> Result<(), String> {
    let mut records = Vec::new();
    let done = std::io::stdin()
        .read_to_end(&mut records)
        .and_then(|_| std::io::stdout().write_all(&blocks::write_records(&records, Form::Rows)));
    done.map_err(|e| format!("rows: {e}"))
}

fn log<M: Mode>() -> Result<(), String> {
    log::log::<M>(std::io::stdin().lock(), std::io::stdout().lock())
        .map_err(|e| format!("log: {e}"))
}

fn audit<M: Mode>() -> Result<(), String> {
    audit::audit::<M>(std::io::stdin().lock(), std::io::stdout().lock())
        .map_err(|e| format!("audit: {e}"))
}

fn case(name: &str) -> Result<Case, String> {
    Case::new(name).ok_or(format!("no case {name}"))
}

fn number(text: &str) -> Result<u64, String> {
    text.parse().map_err(|_| format!("no number: {text}"))
}
