//! The machine of document 01, as the requests in force amend it, as a Rust model that changes its
//! board in place. It starts from reset; boards handed in are not repaired. There are two of it,
//! plain and tuned, which differ in the mode and the step of the channels and share the rest.
pub mod channel;
pub mod filters;
mod plain;
mod queue;
mod tuned;
mod word;

pub use plain::Plain;
pub use tuned::Tuned;

use crate::event::{Answer, Event, RECORD};
use channel::{Channel, Mode, Scene, NO_ROUTE, SOFT};
use filters::Filters;
use word::Word;

pub const CHANNELS: usize = 6;
pub const PINS: u8 = 48;
const VIRTUALS: u8 = 6;
const PRESCALE: u32 = 500_000_000;
/// The steps of a microsecond, after which the timestamp goes up.
const MICROSECOND: u32 = 50;
/// The steps from one tick to the next, XS 8 first.
const PERIODS: [u32; 8] = [
    500_000_000,
    50_000_000,
    5_000_000,
    500_000,
    50_000,
    5_000,
    500,
    50,
];
const INTERVAL: u32 = 50_000_000;
/// The stages of the watchdog.
pub const STAGES: usize = 3;
/// Words with the bit of every pin, of every virtual output.
const ALL_PINS: u64 = (1 << PINS) - 1;
const ALL_VIRTUALS: u64 = (1 << VIRTUALS) - 1;

/// The pins, a bit of each word for each pin.
#[derive(Clone, Copy)]
pub struct Pins {
    pub level: u64,
    pub driven: u64,
    pub own: u64,
    pub safe_data: u64,
    pub safe_enable: u64,
    /// The pins of each source: the own register, then the channels.
    pub sources: [u64; CHANNELS + 1],
    pub filters: Filters,
}

impl Pins {
    fn reset() -> Pins {
        let mut sources = [0; CHANNELS + 1];
        sources[0] = ALL_PINS;
        Pins {
            level: 0,
            driven: 0,
            own: 0,
            safe_data: 0,
            safe_enable: ALL_PINS,
            sources,
            filters: Filters::reset(),
        }
    }

    /// The filtered levels, by the external levels `w`.
    fn sense(&mut self, w: u64) {
        self.level = self.filters.step(w | self.driven, self.level);
    }

    fn drive(&mut self, extouts: u32, safemode: bool) {
        let mut driven = self.own & self.sources[0];
        for c in 0..CHANNELS {
            // All bits are the channel's ExtOut.
            let extout = 0u64.wrapping_sub(u64::from(extouts >> c & 1));
            driven |= self.sources[c + 1] & extout;
        }
        if safemode {
            driven = self.safe_data & self.safe_enable | driven & !self.safe_enable;
        }
        self.driven = driven;
    }

    fn set_source(&mut self, pin: u8, source: u32) {
        for pins in &mut self.sources {
            *pins &= !(1 << pin);
        }
        self.sources[source as usize] |= 1 << pin;
    }
}

/// The virtual outputs, a bit of each word for each output.
#[derive(Clone, Copy)]
pub struct Virtuals {
    pub own: u64,
    pub safe_data: u64,
    pub safe_enable: u64,
}

impl Virtuals {
    fn levels(&self, safemode: bool) -> u64 {
        if safemode {
            self.safe_data & self.safe_enable | self.own & !self.safe_enable
        } else {
            self.own
        }
    }
}

#[derive(Clone, Copy)]
pub struct Stage {
    pub interval: u32,
    pub rest: u32,
    pub expired: bool,
}

impl Stage {
    fn reset() -> Stage {
        Stage {
            interval: INTERVAL,
            rest: 0,
            expired: false,
        }
    }

    fn step(&mut self) {
        if self.rest > 0 {
            self.rest -= 1;
            self.expired |= self.rest == 0;
        }
    }
}

#[derive(Clone, Copy)]
pub struct Watchdog {
    pub stages: [Stage; STAGES],
    pub enabled: bool,
}

impl Watchdog {
    /// From the last stage down, so that each finds the mark that the one before it had before the
    /// step.
    fn step(&mut self) {
        if !self.enabled {
            return;
        }
        for stage in (1..STAGES).rev() {
            if self.stages[stage - 1].expired {
                self.stages[stage].step();
            }
        }
        self.stages[0].step();
    }

    fn kick(&mut self) {
        for stage in &mut self.stages {
            stage.rest = stage.interval;
            stage.expired = false;
        }
    }

    fn enable(&mut self, on: bool) {
        if on && !self.enabled {
            self.kick();
        }
        self.enabled = on;
    }
}

#[derive(Clone, Copy)]
pub struct Board<M> {
    pub channels: [Channel<M>; CHANNELS],
    /// ExtOuts of the last step, a bit for each channel.
    pub extouts: u32,
    pub pins: Pins,
    pub virtuals: Virtuals,
    pub prescaler: u32,
    pub timestamp: u32,
    pub watchdog: Watchdog,
    pub control: u32,
    /// Safe writes are allowed (SWE).
    pub writes: bool,
    pub safemode: bool,
}

impl<M: Mode> Board<M> {
    pub fn reset() -> Board<M> {
        Board {
            channels: [Channel::reset(); CHANNELS],
            extouts: 0,
            pins: Pins::reset(),
            virtuals: Virtuals {
                own: 0,
                safe_data: 0,
                safe_enable: ALL_VIRTUALS,
            },
            prescaler: 0,
            timestamp: 0,
            watchdog: Watchdog {
                stages: [Stage::reset(); STAGES],
                enabled: false,
            },
            control: 0,
            writes: false,
            safemode: false,
        }
    }

    /// One event.
    #[inline]
    pub fn apply(&mut self, e: &Event) -> Answer {
        match e.kind {
            0 if is_good_step(e) => {
                self.step(e.v, e.w);
                ACCEPTED
            }
            0 => refused(3),
            1..=12 => self.on_channel(e),
            13..=17 | 30 => self.on_pin(e),
            18..=21 => self.on_virtual(e),
            22..=29 => self.on_board(e),
            _ => refused(2),
        }
    }

    /// A step with the channels' lines `v` and the external pin levels `w`.
    pub fn step(&mut self, v: u32, w: u64) {
        let ticks = self.tick();
        self.pins.sense(w);
        self.watchdog.step();
        self.safemode |= self.is_triggered();
        let scene = Scene {
            timestamp: self.timestamp,
            timestamp_rises: ticks != 0,
            extouts: self.extouts,
            ticks,
            inputs: self.pins.level | self.virtuals.levels(self.safemode) << PINS,
        };
        self.extouts = M::step(&mut self.channels, v, &scene);
        self.pins.drive(self.extouts, self.safemode);
    }

    /// The prescaler and the timestamp go on. The answer is the ticks, XS 8 in bit 0.
    fn tick(&mut self) -> u32 {
        self.prescaler += 1;
        if self.prescaler == PRESCALE {
            self.prescaler = 0;
        }
        if !self.prescaler.is_multiple_of(MICROSECOND) {
            return 0;
        }
        self.timestamp = self.timestamp.wrapping_add(1);
        let mut ticks = 0;
        for (tick, period) in PERIODS.into_iter().enumerate().rev() {
            if !self.prescaler.is_multiple_of(period) {
                break;
            }
            ticks |= 1 << tick;
        }
        ticks
    }

    fn is_triggered(&self) -> bool {
        let by_watchdog = self.control & 4 != 0;
        let by_pin47 = self.control & 1 != 0;
        let active = self.control >> 1 & 1;
        let pin47 = (self.pins.level >> 47) as u32 & 1;
        by_watchdog && self.watchdog.stages[0].expired || by_pin47 && pin47 == active
    }

    fn on_channel(&mut self, e: &Event) -> Answer {
        let Some(channel) = self.channels.get_mut(e.member as usize) else {
            return refused(1);
        };
        if !fits(e) {
            return refused(3);
        }
        match e.kind {
            1 | 4 if channel.running => return refused(4),
            1 => channel.set_mode(e.v),
            2 => channel.preloads[e.selector as usize & 1] = e.v,
            3 => channel.compares[e.selector as usize & 1] = e.v,
            4 => channel.route = e.v,
            5 => channel.mask = e.v,
            6 => channel.start(),
            7 => channel.running = false,
            8 => {
                channel.capture(self.timestamp, SOFT);
            }
            9 => channel.preload(),
            10 => return tell(channel.count),
            11 => return channel.queue.read(),
            _ => return tell(channel.status()),
        }
        ACCEPTED
    }

    fn on_pin(&mut self, e: &Event) -> Answer {
        if e.member >= PINS {
            return refused(1);
        }
        if !fits(e) {
            return refused(3);
        }
        let pins = &mut self.pins;
        match e.kind {
            13 => pins.set_source(e.member, e.v),
            14 => put(&mut pins.own, e.member, e.v),
            15 | 16 if !self.writes => return refused(12),
            15 => put(&mut pins.safe_data, e.member, e.v),
            16 => put(&mut pins.safe_enable, e.member, e.v),
            17 => return tell((pins.level >> e.member) as u32 & 1),
            _ => pins.filters.put(e.member as usize, e.v as u16, 0),
        }
        ACCEPTED
    }

    fn on_virtual(&mut self, e: &Event) -> Answer {
        if e.member >= VIRTUALS {
            return refused(1);
        }
        if !fits(e) {
            return refused(3);
        }
        let virtuals = &mut self.virtuals;
        match e.kind {
            18 => put(&mut virtuals.own, e.member, e.v),
            19 | 20 if !self.writes => return refused(12),
            19 => put(&mut virtuals.safe_data, e.member, e.v),
            20 => put(&mut virtuals.safe_enable, e.member, e.v),
            21 => return tell((virtuals.own >> e.member) as u32 & 1),
            _ => {}
        }
        ACCEPTED
    }

    fn on_board(&mut self, e: &Event) -> Answer {
        if e.member != 0 {
            return refused(1);
        }
        if !fits(e) {
            return refused(3);
        }
        match e.kind {
            22 => self.control = e.v,
            23 => self.writes = e.v != 0,
            24 => self.safemode = false,
            25 if self.watchdog.enabled => return refused(7),
            25 => self.watchdog.stages[e.selector as usize % STAGES].interval = e.v,
            26 => self.watchdog.enable(e.v != 0),
            27 => self.watchdog.kick(),
            28 => return tell(self.timestamp),
            _ => return tell(self.status()),
        }
        ACCEPTED
    }

    fn status(&self) -> u32 {
        let [first, second, third] = self.watchdog.stages.map(|stage| stage.expired as u32);
        self.safemode as u32
            | first << 1
            | (self.writes as u32) << 2
            | (self.watchdog.enabled as u32) << 3
            | second << 4
            | third << 5
    }
}

/// A list of records, with the bytes of an answer for each.
#[inline(never)]
pub fn run<M: Mode>(board: &mut Board<M>, records: &[u8], answers: &mut [u8]) {
    let records = records.chunks_exact(RECORD);
    let answers = answers.chunks_exact_mut(RECORD);
    for (record, answer) in records.zip(answers) {
        let event = Event::from_record(record.try_into().unwrap());
        answer.copy_from_slice(&board.apply(&event).to_bytes());
    }
}

const ACCEPTED: Answer = Answer {
    result: 0,
    value: 0,
    timestamp: 0,
    reason: 0,
};

fn refused(result: u32) -> Answer {
    Answer { result, ..ACCEPTED }
}

fn tell(value: u32) -> Answer {
    Answer { value, ..ACCEPTED }
}

/// Puts one bit of a word.
fn put(word: &mut u64, place: u8, bit: u32) {
    *word = *word & !(1 << place) | u64::from(bit) << place;
}

/// Whether the fields of a step fit.
fn is_good_step(e: &Event) -> bool {
    e.member | e.selector | e.spare == 0 && e.v >> (3 * CHANNELS) == 0 && e.w >> PINS == 0
}

/// Whether the fields of a call fit, the member apart.
fn fits(e: &Event) -> bool {
    let selectors = match e.kind {
        2 | 3 => 2,
        25 => STAGES as u8,
        _ => 1,
    };
    if e.spare != 0 || e.selector >= selectors || e.w != 0 {
        return false;
    }
    match e.kind {
        1 => Word(e.v).is_good(),
        2 | 3 => true,
        4 => e.v <= NO_ROUTE,
        5 => e.v < 512,
        13 => e.v <= CHANNELS as u32,
        14..=16 | 18..=20 | 23 | 26 => e.v < 2,
        22 => e.v < 8,
        25 => e.v != 0,
        30 => e.v <= u16::MAX.into(),
        _ => e.v == 0,
    }
}
