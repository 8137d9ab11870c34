//! The accounts of the captures of a block file, as a Rust model has them.
use crate::blocks::{self, BLOCK};
use crate::event::{Event, RECORD};
use crate::model::channel::Mode;
use crate::model::{Board, CHANNELS};
use std::io::{self, Read, Write};

type Counts = [u64; CHANNELS];

/// Call 11, and its result that tells how many captures were lost.
const READ: u8 = 11;
const LOST: u32 = 6;

/// Reads a block file and prints a line for each channel: the channel, captures made, handed out,
/// held, reported and not yet reported. What was handed out and reported is counted in the answers,
/// which are those that the log has.
pub fn audit<M: Mode>(mut input: impl Read, mut output: impl Write) -> io::Result<()> {
    let mut file = Vec::new();
    input.read_to_end(&mut file)?;
    let mut board = Board::<M>::reset();
    let mut made = Counts::default();
    let mut handed = Counts::default();
    let mut reported = Counts::default();
    for event in events(&file)? {
        add_captures(board, &event, &mut made);
        let answer = board.apply(&event);
        if event.kind == READ && answer.result == 0 {
            handed[event.member as usize] += 1;
        }
        if event.kind == READ && answer.result == LOST {
            reported[event.member as usize] += u64::from(answer.value);
        }
    }
    for (c, channel) in board.channels.iter().enumerate() {
        let queue = &channel.queue;
        writeln!(
            output,
            "{c} {} {} {} {} {}",
            made[c],
            handed[c],
            queue.held(),
            reported[c],
            queue.lost
        )?;
    }
    Ok(())
}

/// Adds the captures that an event makes. On a board whose queues are empty each of them is held.
fn add_captures<M: Mode>(mut board: Board<M>, event: &Event, made: &mut Counts) {
    for channel in &mut board.channels {
        channel.queue = Default::default();
    }
    board.apply(event);
    for (c, channel) in board.channels.iter().enumerate() {
        made[c] += channel.queue.held() as u64;
    }
}

/// The events of a sound file.
fn events(file: &[u8]) -> io::Result<Vec<Event>> {
    let last = file.len().div_ceil(BLOCK);
    let mut events = Vec::new();
    for (i, block) in file.chunks(BLOCK).enumerate() {
        let records = blocks::records(block, i as u32, i + 1 < last)
            .map_err(|result| io::Error::other(format!("block {i} {result}")))?;
        for record in records.bytes().chunks_exact(RECORD) {
            events.push(Event::from_record(record.try_into().unwrap()));
        }
    }
    Ok(events)
}
