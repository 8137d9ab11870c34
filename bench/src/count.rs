//! Instructions for an event, by valgrind's callgrind.
use crate::side::Side;
use std::fs::File;
use std::path::Path;
use std::process::{Command, Stdio};

/// The lengths whose difference is counted, so that the start of a program is left out.
pub const SHORT: usize = 2_000;
pub const LONG: usize = 12_000;

/// The instructions for an event of a case on one side of this program.
pub fn of_case(case: &str, side: Side) -> Option<f64> {
    let program = std::env::current_exe().ok()?;
    let total = |n: usize| {
        let arguments = ["count", case, side.name(), &n.to_string()];
        collected(&program, &arguments, Stdio::null())
    };
    per_event(total(SHORT)?, total(LONG)?)
}

/// The instructions for a record that is asked for beforehand.
pub fn of_room() -> Option<f64> {
    let program = std::env::current_exe().ok()?;
    let total = |n: usize| collected(&program, &["room", &n.to_string()], Stdio::null());
    per_event(total(SHORT)?, total(LONG)?)
}

/// The instructions for an event of a program that reads a history of `SHORT` and of `LONG` events.
pub fn of_program(program: &Path, arguments: &[&str], short: &Path, long: &Path) -> Option<f64> {
    let total = |file: &Path| collected(program, arguments, File::open(file).ok()?.into());
    per_event(total(short)?, total(long)?)
}

fn per_event(short: u64, long: u64) -> Option<f64> {
    Some(long.checked_sub(short)? as f64 / (LONG - SHORT) as f64)
}

/// All instructions of a run, or nothing where valgrind is not there.
fn collected(program: &Path, arguments: &[&str], input: Stdio) -> Option<u64> {
    let run = Command::new("valgrind")
        .args(["--tool=callgrind", "--callgrind-out-file=/dev/null"])
        .arg(program)
        .args(arguments)
        .stdin(input)
        .stdout(Stdio::null())
        .output()
        .ok()?;
    let told = String::from_utf8_lossy(&run.stderr);
    let (_, number) = told.split_once("Collected : ")?;
    number.split_whitespace().next()?.parse().ok()
}
