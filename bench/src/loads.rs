//! The loads that are timed: a first board and a list of events for each.
use crate::event::Event;
use crate::model::{self, Plain, CHANNELS, PINS};
use crate::random::Random;

/// The events of a load.
pub const LENGTH: usize = 20_000;
const SEED: u64 = 826;

/// The board that tells what the events of a load lead to.
type Board = model::Board<Plain>;

/// Events that set a board up, from reset, and the events that are measured on it.
pub struct Load {
    pub setup: Vec<Event>,
    pub events: Vec<Event>,
}

pub const NAMES: [&str; 6] = ["busy", "filters", "idle", "overflow", "calls", "quiet"];

/// The load of that name.
pub fn load(name: &str) -> Option<Load> {
    match name {
        "busy" => Some(busy(LENGTH)),
        "filters" => Some(filters()),
        "idle" => Some(idle()),
        "overflow" => Some(overflow()),
        "calls" => Some(calls()),
        "quiet" => Some(quiet()),
        _ => None,
    }
}

/// Mode words, by the fields that document 01 names.
mod mode {
    pub const TE_INDEX: u32 = 1 << 9;
    pub const TP_MATCH0: u32 = 1 << 11;
    pub const TP_MATCH1: u32 = 1 << 12;
    pub const TP_ZERO: u32 = 1 << 13;
    pub const TP_INDEX_RISES: u32 = 1 << 15;
    pub const BP: u32 = 1 << 21;
    pub const UD: u32 = 1 << 22;
    pub const TP_START: u32 = 1 << 24;
    pub const IM_COUNT: u32 = 1 << 25;
    pub const IM_PRELOAD: u32 = 2 << 25;
    pub const IP: u32 = 1 << 27;

    pub const fn xs(source: u32) -> u32 {
        source
    }
    pub const fn k(clock: u32) -> u32 {
        clock << 4
    }
    pub const fn om(output: u32) -> u32 {
        output << 18
    }
}

/// The settings of a channel.
struct Setting {
    mode: u32,
    preloads: [u32; 2],
    compares: [u32; 2],
    route: u32,
    mask: u32,
}

impl Setting {
    /// The calls that make the settings and start the channel.
    fn calls(&self, channel: u8) -> Vec<Event> {
        let register = |kind, selector, v| Event {
            selector,
            ..Event::call(kind, channel, v)
        };
        vec![
            Event::call(1, channel, self.mode),
            register(2, 0, self.preloads[0]),
            register(2, 1, self.preloads[1]),
            register(3, 0, self.compares[0]),
            register(3, 1, self.compares[1]),
            Event::call(4, channel, self.route),
            Event::call(5, channel, self.mask),
            Event::call(6, channel, 0),
        ]
    }
}

/// Six channels at work: an encoder with index homing, a pulse width modulator, a gated edge
/// counter, a microsecond timer and a counter of its wraps, an encoder that a virtual output gates.
fn busy_settings() -> [Setting; CHANNELS] {
    use mode::*;
    [
        Setting {
            mode: k(7) | TP_INDEX_RISES | om(1),
            preloads: [1000, 0],
            compares: [1032, 1 << 30],
            route: 3,
            mask: 1 << 0 | 1 << 8,
        },
        Setting {
            mode: k(3) | xs(14) | UD | BP | om(2) | TP_ZERO | TP_START,
            preloads: [17, 23],
            compares: [5, 1 << 30],
            route: 5,
            mask: 1 << 4,
        },
        Setting {
            mode: k(0) | xs(3) | TP_MATCH0 | om(4) | IM_COUNT,
            preloads: [0, 0],
            compares: [40, 20],
            route: 7,
            mask: 1 << 0,
        },
        Setting {
            mode: k(2) | xs(15) | TE_INDEX | TP_ZERO | TP_START | om(3),
            preloads: [u32::MAX - 2, 0],
            compares: [u32::MAX, 1 << 30],
            route: 54,
            mask: 0,
        },
        Setting {
            mode: k(4) | xs(4) | TP_MATCH1 | om(4) | IP,
            preloads: [0, 0],
            compares: [2, 3],
            route: 48,
            mask: 1 << 1,
        },
        Setting {
            mode: k(5) | xs(1) | TP_INDEX_RISES | om(1) | IM_PRELOAD,
            preloads: [12, 0],
            compares: [0, 26],
            route: 49,
            mask: 1 << 1,
        },
    ]
}

/// The calls that set up the busy board: channels, pins that they drive, virtual outputs, watchdog.
fn busy_setup() -> Vec<Event> {
    let mut setup = Vec::new();
    for (c, setting) in busy_settings().iter().enumerate() {
        setup.extend(setting.calls(c as u8));
    }
    for pin in 0..12 {
        setup.push(Event::call(13, 8 + pin, 1 + u32::from(pin) % 6));
        setup.push(Event::call(14, 24 + pin, u32::from(pin) & 1));
    }
    setup.push(Event::call(18, 1, 1));
    setup.push(Event::call(22, 0, 4));
    setup.push(Event::call(25, 0, 20_000));
    setup.push(Event::call(26, 0, 1));
    setup
}

/// Lines of channels and pins that change from step to step.
struct Lines {
    random: Random,
    v: u32,
    w: u64,
}

impl Lines {
    fn new() -> Lines {
        Lines {
            random: Random::new(SEED),
            v: 0,
            w: 0,
        }
    }

    /// A step in which each encoder moves half of the time, mostly forward, an index changes now
    /// and then, both lines of an encoder seldom, and some pins change.
    fn step(&mut self) -> Event {
        for c in 0..CHANNELS {
            let at = 3 * c;
            let bits = self.random.next() as u32;
            let (a, b) = (self.v >> at & 1, self.v >> (at + 1) & 1);
            // Forward, A changes where A and B are equal, else B.
            let forward = if a == b { 1 } else { 2 };
            if bits & 1 != 0 {
                let turn = if bits & 6 == 0 { 3 - forward } else { forward };
                self.v ^= turn << at;
            }
            if bits >> 3 & 31 == 0 {
                self.v ^= 4 << at;
            }
            if bits >> 8 & 511 == 0 {
                self.v ^= 3 << at;
            }
        }
        self.w ^= 1 << self.random.below(24) | 1 << self.random.below(24);
        Event::step(self.v, self.w)
    }
}

/// Steps on the busy board, and a call in 64 events, many of them reads of the fullest queue.
pub fn busy(length: usize) -> Load {
    let setup = busy_setup();
    let mut board = Board::reset();
    for event in &setup {
        board.apply(event);
    }
    let mut lines = Lines::new();
    let mut events = Vec::with_capacity(length);
    for i in 0..length {
        let event = if i % 64 == 63 {
            busy_call(&board, &mut lines.random, i)
        } else {
            lines.step()
        };
        board.apply(&event);
        events.push(event);
    }
    Load { setup, events }
}

fn busy_call(board: &Board, random: &mut Random, i: usize) -> Event {
    if i % 8192 == 4095 {
        return Event::call(27, 0, 0);
    }
    let fullest = (0..CHANNELS)
        .max_by_key(|&c| board.channels[c].queue.held())
        .unwrap_or(0);
    if board.channels[fullest].queue.held() >= 4 {
        return Event::call(11, fullest as u8, 0);
    }
    match random.below(5) {
        0 => Event::call(10, random.below(6) as u8, 0),
        1 => Event::call(14, 24 + random.below(12) as u8, random.below(2)),
        2 => Event::call(18, random.below(2) as u8, random.below(2)),
        3 => Event::call(17, random.below(48) as u8, 0),
        _ => Event::call(28, 0, 0),
    }
}

/// The busy load with a filter on each pin, so that most changes of a level wait.
fn filters() -> Load {
    let Load { mut setup, events } = busy(LENGTH);
    setup.extend((0..PINS).map(|pin| Event::call(30, pin, 3)));
    Load { setup, events }
}

/// Steps with changing lines on a board at reset.
fn idle() -> Load {
    let mut lines = Lines::new();
    Load {
        setup: Vec::new(),
        events: (0..LENGTH).map(|_| lines.step()).collect(),
    }
}

/// Steps with all lines low on a board at reset.
fn quiet() -> Load {
    Load {
        setup: Vec::new(),
        events: vec![Event::step(0, 0); LENGTH],
    }
}

/// Channels that capture most edges of a restless index into full queues.
fn overflow() -> Load {
    let mut setup = Vec::new();
    for c in 0..CHANNELS as u8 {
        let setting = Setting {
            mode: mode::k(3 + u32::from(c) % 5),
            preloads: [0, 0],
            compares: [1 << 30, 1 << 30],
            route: 54,
            mask: 1 << 3 | 1 << 4,
        };
        setup.extend(setting.calls(c));
        setup.extend([Event::call(8, c, 0); 16]);
    }
    let mut lines = Lines::new();
    let events = (0..LENGTH)
        .map(|_| {
            let mut event = lines.step();
            for c in 0..CHANNELS {
                if !lines.random.once_in(8) {
                    lines.v ^= 4 << (3 * c);
                }
            }
            event.v = lines.v;
            event
        })
        .collect();
    Load { setup, events }
}

/// Calls of all kinds without a step; the board refuses a few of them.
fn calls() -> Load {
    let busy = busy(4 * 64);
    let setup: Vec<Event> = busy.setup.into_iter().chain(busy.events).collect();
    let mut board = Board::reset();
    for event in &setup {
        board.apply(event);
    }
    let mut random = Random::new(SEED);
    let mut events = Vec::with_capacity(LENGTH);
    while events.len() < LENGTH {
        let event = any_call(&mut random);
        let mut after = board;
        // Most of what would be refused is left out.
        if after.apply(&event).result != 0 && !random.once_in(8) {
            continue;
        }
        board = after;
        events.push(event);
    }
    Load { setup, events }
}

fn any_call(random: &mut Random) -> Event {
    let kind = 1 + random.below(30) as u8;
    let member = match kind {
        1..=12 | 18..=21 => random.below(6),
        13..=17 | 30 => random.below(48),
        _ => 0,
    };
    let v = match kind {
        1 => busy_settings()[random.below(6) as usize].mode,
        2 | 3 => random.below(2000),
        4 => random.below(55),
        5 => random.below(512),
        13 => random.below(7),
        14..=16 | 18..=20 | 23 | 26 => random.below(2),
        22 => random.below(8),
        25 => 1 + random.below(50_000),
        30 => random.below(1 << 16),
        _ => 0,
    };
    let bad = random.once_in(64) as u8;
    Event {
        selector: (kind == 2 || kind == 3) as u8 & random.below(2) as u8,
        spare: bad,
        ..Event::call(kind, member as u8, v)
    }
}
