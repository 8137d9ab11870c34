//! What is told of a history beforehand, beside the file and the log that the Rust models make of
//! it; and how long that takes, beside the program `boardpack`, which writes the file.
use crate::blocks::{self, Form, BLOCK};
use crate::boardlog;
use crate::count;
use crate::event::{to_records, RECORD};
use crate::histories::history;
use crate::loads;
use crate::log;
use crate::model::Plain;
use crate::proved::{self, Needs};
use crate::random::Random;
use std::fs;
use std::hint::black_box;
use std::io;
use std::path::Path;
use std::time::Instant;

/// The most records of a file, and the bytes that a line is counted with.
const MOST: usize = 2_031_585;
const LINE: usize = 41;
/// The lengths of histories around the ends of a block, of steps alone and of other bytes.
const LENGTHS: [usize; 8] = [0, 1, 30, 31, 32, 61, 62, 63];
/// How many random histories are compared, and as many of random bytes, with the events of each.
const HISTORIES: u64 = 400;
const EVENTS: usize = 500;
const ROUNDS: usize = 15;

/// Compares, then prints what a record costs.
pub fn print(folder: &Path) -> Result<(), String> {
    let compared = compare()?;
    println!("As the models have it on {compared} histories, and 11 where no file has them.\n");
    println!("| what | ns a record | instructions a record |");
    println!("|-|-|-|");
    let records = busy(boardlog::EVENTS);
    print_row("told beforehand", least_time(&records), count::of_room());
    let Some(program) = boardlog::program("boardpack") else {
        println!("\nboardpack is not built, so it is not measured.");
        return Ok(());
    };
    let io_error = |e: io::Error| format!("boardpack: {e}");
    let [short, middle, long] = [count::SHORT, count::LONG, boardlog::EVENTS]
        .map(|n| folder.join(format!("busy-{n}.records")));
    for (path, n) in [(&short, count::SHORT), (&middle, count::LONG)] {
        fs::write(path, busy(n)).map_err(io_error)?;
    }
    fs::write(&long, &records).map_err(io_error)?;
    let output = folder.join("boardpack.hist");
    let mut least = f64::MAX;
    for _ in 0..boardlog::ROUNDS {
        least = least.min(boardlog::run(&program, &[], &long, &output).map_err(io_error)?);
    }
    let instructions = count::of_program(&program, &[], &short, &middle);
    print_row(
        "boardpack",
        least * 1e9 / boardlog::EVENTS as f64,
        instructions,
    );
    Ok(())
}

/// Asks for the first `n` records of the busy load once; all that are counted are made before.
pub fn ask(n: usize) -> Result<(), String> {
    let records = busy(count::LONG);
    let asked = records.get(..RECORD * n);
    let asked = asked.ok_or(format!("there are {} records", count::LONG))?;
    black_box(proved::needs(black_box(asked)));
    Ok(())
}

fn print_row(name: &str, ns: f64, instructions: Option<f64>) {
    let count = instructions.map_or("-".into(), |n| format!("{n:.1}"));
    println!("| {name} | {ns:.2} | {count} |");
}

/// The records of the first `n` events of the busy load.
fn busy(n: usize) -> Vec<u8> {
    let load = loads::busy(n);
    to_records(&[load.setup, load.events].concat()[..n])
}

/// The least time for a record.
fn least_time(records: &[u8]) -> f64 {
    let seconds = |_| {
        let start = Instant::now();
        black_box(proved::needs(black_box(records)));
        start.elapsed().as_secs_f64()
    };
    let least = (0..ROUNDS).map(seconds).fold(f64::MAX, f64::min);
    least * 1e9 / (records.len() / RECORD) as f64
}

/// Compares, and answers on how many histories.
fn compare() -> Result<usize, String> {
    let mut compared = 0;
    let mut met = |records: &[u8]| {
        compared += 1;
        told(records).map_err(|e| format!("room, history {compared}: {e}"))
    };
    for seed in 0..HISTORIES {
        met(&to_records(&history(seed, EVENTS)))?;
        met(&random_bytes(seed))?;
    }
    for n in LENGTHS {
        met(&vec![0; RECORD * n])?;
        met(&vec![1; RECORD * n])?;
    }
    met(&vec![0; RECORD * MOST])?;
    met(&vec![1; RECORD * MOST])?;
    for name in loads::NAMES {
        let load = loads::load(name).ok_or(format!("no load {name}"))?;
        met(&to_records(&[load.setup, load.events].concat()))?;
    }
    for length in [
        1,
        15,
        17,
        RECORD * 31 + 8,
        RECORD * (MOST + 1),
        RECORD * MOST + 1,
    ] {
        refused(&vec![0; length])?;
    }
    Ok(compared)
}

/// Records of random bytes, half of them steps whose V and W are now and then too high.
fn random_bytes(seed: u64) -> Vec<u8> {
    let mut random = Random::new(seed);
    let mut records: Vec<u8> = (0..RECORD * EVENTS).map(|_| random.next() as u8).collect();
    for record in records.chunks_exact_mut(RECORD) {
        if random.once_in(2) {
            record[..4].fill(0);
            record[6..8].copy_from_slice(&[random.below(5) as u8, 0]);
            record[14..].fill(random.once_in(8) as u8);
        }
    }
    records
}

/// Whether what is told of a history is what its file and its log have.
fn told(records: &[u8]) -> Result<(), String> {
    let file = blocks::write_records(records, Form::Columns);
    let mut text = Vec::new();
    log::log::<Plain>(&file[..], &mut text).map_err(|e| e.to_string())?;
    let lines = text.iter().filter(|&&b| b == b'\n').count();
    let needs = proved::needs(records);
    let came = Needs {
        result: 0,
        blocks: (file.len() / BLOCK) as u32,
        steps: (records.len() / RECORD - lines) as u32,
        lines: lines as u32,
        bytes: (LINE * lines) as u32,
    };
    if needs != came || text.len() > needs.bytes as usize {
        return Err(format!(
            "told {needs:?}, came {came:?}, {} bytes",
            text.len()
        ));
    }
    Ok(())
}

fn refused(bytes: &[u8]) -> Result<(), String> {
    let needs = proved::needs(bytes);
    let nothing = Needs {
        result: 11,
        ..Needs::default()
    };
    if needs != nothing {
        return Err(format!("room, {} bytes: told {needs:?}", bytes.len()));
    }
    Ok(())
}
