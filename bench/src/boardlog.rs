//! The program `boardlog` beside the Rust program of the same over each model: equal output, then
//! times.
use crate::blocks;
use crate::count;
use crate::loads;
use crate::log;
use crate::model::channel::Mode;
use crate::side::{Side, SIDES};
use crate::table::Row;
use std::fs::{self, File};
use std::io;
use std::path::{Path, PathBuf};
use std::process::Command;
use std::time::Instant;

/// The events of the history that is timed.
pub const EVENTS: usize = 2_000_000;
pub const ROUNDS: usize = 7;

/// A program that is timed, if it is there: the one that PUNTARYS_ and its name in capitals names, or
/// that of the project.
pub fn program(name: &str) -> Option<PathBuf> {
    let variable = format!("PUNTARYS_{}", name.to_uppercase());
    let named = std::env::var_os(variable).map(PathBuf::from);
    let folder = concat!(env!("CARGO_MANIFEST_DIR"), "/../target/bin");
    Some(named.unwrap_or(Path::new(folder).join(name))).filter(|path| path.is_file())
}

/// Compares and times the programs; the files stand in `folder`.
pub fn measure(boardlog: &Path, folder: &Path) -> Result<Row, String> {
    let io_error = |e: io::Error| format!("boardlog: {e}");
    let rust = std::env::current_exe().map_err(io_error)?;
    let programs: [(&Path, &[&str]); 3] = [
        (boardlog, &[]),
        (&rust, &["log", Side::Plain.name()]),
        (&rust, &["log", Side::Tuned.name()]),
    ];
    let outputs = SIDES.map(|side| folder.join(format!("boardlog-{}.log", side.name())));
    let long = history(folder, EVENTS).map_err(io_error)?;

    let mut least = [f64::MAX; 3];
    for round in 0..ROUNDS {
        for (i, (program, arguments)) in programs.iter().enumerate() {
            let time = run(program, arguments, &long, &outputs[i]).map_err(io_error)?;
            least[i] = least[i].min(time);
        }
        if round == 0 {
            same_output(&outputs)?;
        }
    }

    let short = history(folder, count::SHORT).map_err(io_error)?;
    let middle = history(folder, count::LONG).map_err(io_error)?;
    Ok(Row {
        case: "boardlog",
        times: least.map(|seconds| seconds * 1e9 / EVENTS as f64),
        instructions: programs
            .map(|(program, arguments)| count::of_program(program, arguments, &short, &middle)),
    })
}

/// The block file of a busy history.
fn history(folder: &Path, events: usize) -> io::Result<PathBuf> {
    let path = folder.join(format!("busy-{events}.hist"));
    let load = loads::busy(events);
    let all: Vec<_> = load.setup.into_iter().chain(load.events).collect();
    fs::write(&path, blocks::write(&all[..events]))?;
    Ok(path)
}

/// The seconds that a program takes from its start to its end.
pub fn run(program: &Path, arguments: &[&str], input: &Path, output: &Path) -> io::Result<f64> {
    let input = File::open(input)?;
    let output = File::create(output)?;
    let start = Instant::now();
    let status = Command::new(program)
        .args(arguments)
        .stdin(input)
        .stdout(output)
        .status()?;
    let seconds = start.elapsed().as_secs_f64();
    if !status.success() {
        return Err(io::Error::other(format!("{} {status}", program.display())));
    }
    Ok(seconds)
}

fn same_output(outputs: &[PathBuf; 3]) -> Result<(), String> {
    let read = |path: &PathBuf| fs::read(path).map_err(|e| format!("boardlog: {e}"));
    let proved = read(&outputs[0])?;
    for (side, output) in SIDES.into_iter().zip(outputs) {
        if let Some(line) = first_difference(&proved, &read(output)?) {
            let name = side.name();
            return Err(format!(
                "boardlog and the {name} model differ at line {line}"
            ));
        }
    }
    Ok(())
}

/// The number of the first line that differs.
fn first_difference(one: &[u8], other: &[u8]) -> Option<usize> {
    if one == other {
        return None;
    }
    let lines = |text: &[u8]| text.split(|&b| b == b'\n').map(<[u8]>::to_vec).collect();
    let (one, other): (Vec<_>, Vec<_>) = (lines(one), lines(other));
    let same = one.iter().zip(&other).take_while(|(a, b)| a == b).count();
    Some(same + 1)
}

/// Compares what the Rust program prints over a model for each NAME.hist of a folder with its
/// NAME.log; the answer is their number.
pub fn vectors<M: Mode>(folder: &Path) -> Result<usize, String> {
    let io_error = |e: io::Error| format!("{}: {e}", folder.display());
    let mut compared = 0;
    for entry in fs::read_dir(folder).map_err(io_error)? {
        let path = entry.map_err(io_error)?.path();
        if path.extension().is_none_or(|extension| extension != "hist") {
            continue;
        }
        let expected = fs::read(path.with_extension("log")).map_err(io_error)?;
        let mut printed = Vec::new();
        log::log::<M>(File::open(&path).map_err(io_error)?, &mut printed).map_err(io_error)?;
        if let Some(line) = first_difference(&expected, &printed) {
            let name = path.display();
            return Err(format!("{} model, {name}: line {line} differs", M::NAME));
        }
        compared += 1;
    }
    Ok(compared)
}
