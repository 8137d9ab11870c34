//! The loads on all sides: what is run, and how long it takes.
use crate::event::{to_records, Answer, Event, RECORD};
use crate::loads::{self, Load};
use crate::model::channel::Mode;
use crate::model::{self, Plain, Tuned};
use crate::proved;
use crate::side::{Side, SIDES};
use std::hint::black_box;
use std::time::{Duration, Instant};

/// The names of the cases: the loads as lists, and the busy one event by event.
pub const CASES: [&str; 6] = ["busy", "filters", "idle", "overflow", "calls", SINGLE];
/// The cases that have steps.
pub const STEP_CASES: [&str; 5] = ["busy", "filters", "idle", "overflow", SINGLE];
pub const SINGLE: &str = "single";

/// How long a round takes.
const ROUND: Duration = Duration::from_millis(25);

/// A load on a first board, in the form of each side.
pub struct Case {
    /// The events are handed over one by one.
    single: bool,
    proved: proved::Board,
    plain: model::Board<Plain>,
    tuned: model::Board<Tuned>,
    events: Vec<Event>,
    records: Vec<u8>,
    answers: Vec<u8>,
}

impl Case {
    pub fn new(name: &str) -> Option<Case> {
        let single = name == SINGLE;
        let load = if single { "busy" } else { name };
        let Load { setup, events } = loads::load(load)?;
        let setup = to_records(&setup);
        let records = to_records(&events);
        let mut answers = vec![0; setup.len().max(records.len())];
        Some(Case {
            single,
            proved: proved::run(proved::reset(), &setup, &mut answers).board,
            plain: set_up(&setup, &mut answers),
            tuned: set_up(&setup, &mut answers),
            events,
            records,
            answers,
        })
    }

    /// Hands the first `n` events to a side, on the first board.
    pub fn pass(&mut self, side: Side, n: usize) {
        let events = black_box(&self.events[..n]);
        let records = black_box(&self.records[..RECORD * n]);
        let answers = &mut self.answers;
        match (side, self.single) {
            (Side::Proved, false) => proved_list(self.proved, records, answers),
            (Side::Plain, false) => model_list(self.plain, records, answers),
            (Side::Tuned, false) => model_list(self.tuned, records, answers),
            (Side::Proved, true) => proved_events(self.proved, events),
            (Side::Plain, true) => model_events(self.plain, events),
            (Side::Tuned, true) => model_events(self.tuned, events),
        }
    }

    /// How many events the load has.
    pub fn events(&self) -> usize {
        self.events.len()
    }

    /// How many of them are steps.
    pub fn steps(&self) -> usize {
        self.events.iter().filter(|event| event.kind == 0).count()
    }

    /// Runs the load so many times in each part with the proved code, each time on the board that the
    /// last one has left; the seconds of each part.
    pub fn long_run(&mut self, parts: usize, passes: usize) -> Vec<f64> {
        let mut board = self.proved;
        let mut part = || {
            let start = Instant::now();
            for _ in 0..passes {
                let ran = proved::run(board, black_box(&self.records), &mut self.answers);
                assert_eq!(ran.answered, self.events.len());
                board = ran.board;
            }
            start.elapsed().as_secs_f64()
        };
        (0..parts).map(|_| part()).collect()
    }

    /// How many passes fill a round.
    fn passes(&mut self, side: Side) -> usize {
        self.time(side, 1);
        let pass = self.time(side, 1) * self.events.len() as f64;
        (ROUND.as_nanos() as f64 / pass).ceil() as usize
    }

    fn time(&mut self, side: Side, passes: usize) -> f64 {
        let n = self.events.len();
        let start = Instant::now();
        for _ in 0..passes {
            self.pass(side, n);
        }
        start.elapsed().as_nanos() as f64 / (passes * n) as f64
    }
}

/// The model's board after some records from reset.
fn set_up<M: Mode>(records: &[u8], answers: &mut [u8]) -> model::Board<M> {
    let mut board = model::Board::reset();
    model::run(&mut board, records, answers);
    board
}

fn proved_list(board: proved::Board, records: &[u8], answers: &mut [u8]) {
    let ran = proved::run(black_box(board), records, answers);
    black_box((&ran, answers));
}

fn model_list<M: Mode>(board: model::Board<M>, records: &[u8], answers: &mut [u8]) {
    let mut board = black_box(board);
    model::run(&mut board, records, answers);
    black_box((&board, answers));
}

fn proved_events(board: proved::Board, events: &[Event]) {
    let mut outcome = proved::Outcome {
        board: black_box(board),
        answer: Answer::default(),
    };
    for event in events {
        outcome = proved::apply(outcome.board, *event);
        black_box(outcome.answer);
    }
    black_box(&outcome);
}

fn model_events<M: Mode>(board: model::Board<M>, events: &[Event]) {
    let mut board = black_box(board);
    for event in events {
        black_box(apply_one(&mut board, event));
    }
    black_box(&board);
}

#[inline(never)]
fn apply_one<M: Mode>(board: &mut model::Board<M>, event: &Event) -> Answer {
    board.apply(event)
}

/// The nanoseconds for an event of each case on each side: the least of the rounds. Cases and sides
/// take turns, so that a disturbance does not fall on one of them.
pub fn times(cases: &mut [Case], rounds: usize) -> Vec<[f64; 3]> {
    let passes: Vec<_> = cases
        .iter_mut()
        .map(|case| SIDES.map(|side| case.passes(side)))
        .collect();
    let mut least = vec![[f64::MAX; 3]; cases.len()];
    for _ in 0..rounds {
        for (i, case) in cases.iter_mut().enumerate() {
            for (j, side) in SIDES.into_iter().enumerate() {
                least[i][j] = least[i][j].min(case.time(side, passes[i][j]));
            }
        }
    }
    least
}
