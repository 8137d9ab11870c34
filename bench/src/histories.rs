//! Random histories for the comparison: all kinds of events, sound and refused, on boards whose
//! settings change often.
use crate::event::Event;
use crate::random::Random;

/// A history in the making.
struct History {
    random: Random,
    events: Vec<Event>,
    length: usize,
    /// The lines of the channels and of the pins, which walk at random.
    v: u32,
    w: u64,
    /// How many pins may change in a step.
    changes: u32,
}

/// The events of the history with this seed.
pub fn history(seed: u64, length: usize) -> Vec<Event> {
    let mut random = Random::new(seed);
    let changes = random.of(&[0, 6, 24]);
    let mut h = History {
        random,
        events: Vec::with_capacity(length + 64),
        length,
        v: 0,
        w: 0,
        changes,
    };
    h.fill();
    h.events.truncate(length);
    h.events
}

impl History {
    fn fill(&mut self) {
        for channel in 0..6 {
            if !self.random.once_in(4) {
                self.configure(channel);
            }
        }
        if self.random.once_in(2) {
            self.filters();
        }
        while self.events.len() < self.length {
            match self.random.below(64) {
                0..=1 => {
                    let channel = self.random.below(6) as u8;
                    self.configure(channel);
                }
                2 => self.drain(),
                3 => self.safety(),
                4..=11 => {
                    let event = self.sound_call();
                    self.events.push(event);
                }
                12..=18 => {
                    let event = self.any_call();
                    self.events.push(event);
                }
                _ => self.steps(),
            }
        }
    }

    fn call(&mut self, kind: u8, member: u8, v: u32) {
        self.events.push(Event::call(kind, member, v));
    }

    /// A few steps; the lines change in most of them.
    fn steps(&mut self) {
        for _ in 0..1 + self.random.below(4) {
            self.walk();
            self.events.push(Event::step(self.v, self.w));
        }
    }

    fn walk(&mut self) {
        let some = self.random.next() as u32;
        self.v ^= match self.random.below(4) {
            0 => 0,
            1 => some & (some >> 9) & 0o777777,
            2 => 1 << self.random.below(18),
            _ => some & 0o777777,
        };
        for _ in 0..self.changes {
            self.w ^= 1 << self.random.below(48);
        }
    }

    /// New settings of a channel, and mostly a start.
    fn configure(&mut self, channel: u8) {
        self.call(7, channel, 0);
        let mode = self.mode();
        self.call(1, channel, mode);
        let route = self.route();
        self.call(4, channel, route);
        let mask = self.random.of(&[0, 3, 4, 7, 24, 96, 256, 511, 511]);
        self.call(5, channel, mask);
        for _ in 0..self.random.below(5) {
            let event = self.register(channel);
            self.events.push(event);
        }
        for kind in [9, 6] {
            if !self.random.once_in(4) {
                self.call(kind, channel, 0);
            }
        }
    }

    /// A mode word that call 1 takes.
    fn mode(&mut self) -> u32 {
        let r = &mut self.random;
        let tick = 8 + r.below(8);
        let xs = r.of(&[0, 0, 1, 2, 3, 4, 5, 6, 7, tick, tick, tick]);
        let k = r.of(&[0, 1, 2, 3, 3, 4, 4, 5, 6, 7]);
        let td = r.of(&[0, 0, 1, 2]);
        let te = r.of(&[0, 0, 0, 1, 2]);
        let tp = r.below(64) & r.below(64);
        let om = r.below(5);
        let im = r.of(&[0, 0, 1, 2]);
        // OP, BP, UD, the TP bit of the start, IP.
        let bits = r.next() as u32 & (1 << 17 | 1 << 21 | 1 << 22 | 1 << 24 | 1 << 27);
        let nr = (r.once_in(4) as u32) << 23;
        xs | k << 4 | td << 7 | te << 9 | tp << 11 | om << 18 | im << 25 | bits | nr
    }

    /// Pins and virtual outputs, the pins that are much in use more often.
    fn route(&mut self) -> u32 {
        match self.random.below(8) {
            0..=1 => self.random.below(55),
            2..=3 => 48 + self.random.below(6),
            4 => 47,
            _ => self.random.below(4),
        }
    }

    /// A filter, mostly one that a few steps get through.
    fn filter(&mut self) -> u32 {
        let any = self.random.below(1 << 16);
        self.random.of(&[0, 1, 1, 2, 2, 3, 5, 9, any, 65_535])
    }

    /// Filters for some of the pins, or the same for all.
    fn filters(&mut self) {
        let all = self.random.once_in(4);
        let filter = self.filter();
        for pin in 0..48 {
            if all {
                self.call(30, pin, filter);
            } else if self.random.once_in(4) {
                let filter = self.filter();
                self.call(30, pin, filter);
            }
        }
    }

    /// A write of a preload or compare register, mostly a value close to the counts.
    fn register(&mut self, channel: u8) -> Event {
        let v = self.value();
        Event {
            selector: self.random.below(2) as u8,
            ..Event::call(2 + self.random.below(2) as u8, channel, v)
        }
    }

    fn value(&mut self) -> u32 {
        match self.random.below(8) {
            0..=4 => self.random.below(6),
            5..=6 => 0u32.wrapping_sub(self.random.below(5)),
            _ => self.random.next() as u32,
        }
    }

    /// Reads a queue until it is empty, or nearly.
    fn drain(&mut self) {
        let channel = self.random.below(6) as u8;
        for _ in 0..self.random.of(&[1, 3, 17, 18]) {
            self.call(11, channel, 0);
        }
    }

    /// New settings of the watchdog and of safemode, and some data and safe writes.
    fn safety(&mut self) {
        let swe = (!self.random.once_in(4)) as u32;
        self.call(23, 0, swe);
        for _ in 0..self.random.below(8) {
            let kind = self.random.of(&[14, 15, 16, 18, 19, 20]);
            let member = self.member(kind);
            let v = self.random.below(2);
            self.call(kind, member, v);
        }
        let control = self.random.below(8);
        self.call(22, 0, control);
        if self.random.once_in(2) {
            self.call(26, 0, 0);
            for stage in 0..3 {
                let interval = 1 + self.random.of(&[0, 1, 7, 40]);
                self.events.push(Event {
                    selector: stage,
                    ..Event::call(25, 0, interval)
                });
            }
            self.call(26, 0, 1);
        }
        if self.random.once_in(2) {
            self.call(24, 0, 0);
        }
    }

    /// A call whose fields all fit; the state of the board may still refuse it.
    fn sound_call(&mut self) -> Event {
        let kind = 1 + self.random.below(30) as u8;
        let member = self.member(kind);
        let v = self.argument(kind);
        let selector = match kind {
            2 | 3 => self.random.below(2) as u8,
            25 => self.random.below(3) as u8,
            _ => 0,
        };
        Event {
            selector,
            ..Event::call(kind, member, v)
        }
    }

    fn member(&mut self, kind: u8) -> u8 {
        let r = &mut self.random;
        match kind {
            1..=12 | 18..=21 => r.below(6) as u8,
            13..=17 | 30 => {
                let any = r.below(48) as u8;
                r.of(&[0, 1, 2, 3, 47, any])
            }
            _ => 0,
        }
    }

    fn argument(&mut self, kind: u8) -> u32 {
        match kind {
            1 => self.mode(),
            2 | 3 => self.value(),
            4 => self.route(),
            5 => self.random.below(512),
            13 => self.random.below(7),
            14..=16 | 18..=20 | 23 | 26 => self.random.below(2),
            22 => self.random.below(8),
            25 => 1 + self.random.below(50),
            30 => self.filter(),
            _ => 0,
        }
    }

    /// A step or a call with one or two fields, or all of them, that may be bad.
    fn any_call(&mut self) -> Event {
        let mut e = if self.random.once_in(8) {
            Event::step(self.v, self.w)
        } else {
            self.sound_call()
        };
        for _ in 0..1 + self.random.below(2) {
            self.spoil(&mut e);
        }
        e
    }

    fn spoil(&mut self, e: &mut Event) {
        let some = self.random.next();
        match self.random.below(12) {
            0 => e.member = self.random.of(&[1, 5, 6, 47, 48, 255]),
            1 => e.selector = self.random.of(&[1, 2, 3, 255]),
            2 => e.spare = self.random.of(&[1, 128]),
            3..=6 => e.v = self.bad_argument(e.kind),
            7 => e.v = some as u32,
            8 => e.w = self.random.of(&[1, 1 << 48, 1 << 63]),
            9 => e.w |= 1 << self.random.below(64),
            10 => e.kind = self.random.of(&[31, 32, 128, 255]),
            _ => {
                e.kind = some as u8 % 33;
                e.member = (some >> 8) as u8 % 50;
                e.selector = (some >> 16) as u8 % 4;
                e.spare = (some >> 24) as u8 % 2;
                e.v = (some >> 32) as u32;
            }
        }
    }

    /// The smallest argument that does not fit the kind, or one with too high a bit.
    fn bad_argument(&mut self, kind: u8) -> u32 {
        let smallest = match kind {
            0 => 1 << 18,
            1 => return self.bad_mode(),
            4 => 55,
            5 => 512,
            13 => 7,
            14..=16 | 18..=20 | 23 | 26 => 2,
            22 => 8,
            25 => 0,
            30 => 1 << 16,
            _ => 1,
        };
        self.random.of(&[smallest, smallest, smallest | 1 << 31])
    }

    /// A mode word with one bad field: TD, TE, OM, IM, or a bit above them.
    fn bad_mode(&mut self) -> u32 {
        let mode = self.mode();
        let high = 1 << (28 + self.random.below(4));
        let om = (5 + self.random.below(3)) << 18;
        match self.random.below(5) {
            0 => mode | 3 << 7,
            1 => mode | 3 << 9,
            2 => mode & !(7 << 18) | om,
            3 => mode | 3 << 25,
            _ => mode | high,
        }
    }
}
