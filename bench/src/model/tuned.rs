//! The tuned model: the mode word is decoded when it is written, the samples are looked up in a
//! table, and the steps of the channels are written out.
use super::channel::*;
use super::word::Word;
use super::CHANNELS;

/// A step's events have the bits of the reasons, and one more for an index that is high.
const INDEX_HIGH: u32 = 1 << 9;

/// Bits of the word that an index is taken from: A, B and IX of the channel, then the six ExtOuts,
/// then the eight ticks.
const EXTOUTS: u32 = 3;
const TICKS: u32 = 9;

/// Bits of the word that an ExtOut is taken from; the reasons of a match are the other two.
const SECOND: u32 = 1 << 2;
const AT_ZERO: u32 = 1 << 3;
const NOT_AT_ZERO: u32 = 1 << 4;

/// The mode word, and what the step needs of it.
#[derive(Clone, Copy)]
pub struct Tuned {
    word: Word,
    /// XS: the bit that is the index, and 1 if it is inverted.
    index: u32,
    index_inverted: u32,
    /// IP.
    extin_inverted: u32,
    /// K and UD.
    clock: u32,
    reversed: bool,
    /// TE and TD: the events that arm and disarm.
    arms: u32,
    disarms: u32,
    /// TP: the events that ask for a preload.
    preloads: u32,
    /// IM: the samples that must be 1 to count, to preload.
    count_gate: u32,
    preload_gate: u32,
    /// OM: the bits that make ExtOut high; OP.
    output: u32,
    output_inverted: u32,
}

impl Mode for Tuned {
    const NAME: &'static str = "tuned";

    fn new(word: Word) -> Tuned {
        let only_if = |holds: bool, bits: u32| if holds { bits } else { 0 };
        Tuned {
            word,
            index: match word.xs() {
                0 | 1 => IX,
                xs @ 2..=7 => 1 << (EXTOUTS + xs - 2),
                xs => 1 << (TICKS + xs - 8),
            },
            index_inverted: (word.xs() == 1) as u32,
            extin_inverted: word.ip() as u32,
            clock: word.k(),
            reversed: word.ud(),
            arms: only_if(word.te() == 1, INDEX_RISES),
            disarms: only_if(word.td() == 1, INDEX_FALLS) | only_if(word.td() == 2, ZERO),
            preloads: word.tp() | only_if(word.tp_index_high(), INDEX_HIGH),
            count_gate: only_if(word.im() == 1, EXTIN),
            preload_gate: only_if(word.im() == 2, EXTIN),
            output: match word.om() {
                1 => MATCH0 | MATCH1,
                2 => SECOND,
                3 => NOT_AT_ZERO,
                4 => AT_ZERO,
                _ => 0,
            },
            output_inverted: word.op() as u32,
        }
    }

    fn word(&self) -> Word {
        self.word
    }

    #[inline(always)]
    fn step(channels: &mut [Channel<Tuned>; CHANNELS], v: u32, scene: &Scene) -> u32 {
        let [c0, c1, c2, c3, c4, c5] = channels;
        let carries = [c0.carry, c1.carry, c2.carry, c3.carry, c4.carry, c5.carry];
        c0.step(v, carries[5], scene)
            | c1.step(v >> 3, carries[0], scene) << 1
            | c2.step(v >> 6, carries[1], scene) << 2
            | c3.step(v >> 9, carries[2], scene) << 3
            | c4.step(v >> 12, carries[3], scene) << 4
            | c5.step(v >> 15, carries[4], scene) << 5
    }
}

impl Channel<Tuned> {
    /// One step with A, B and IX in the low bits of `v`, and the neighbour's carry. The answer is
    /// ExtOut.
    #[inline(always)]
    fn step(&mut self, v: u32, carry: i32, scene: &Scene) -> u32 {
        let before = self.kept;
        let now = self.samples(v & (A | B | IX), scene);
        self.kept = now;
        self.carry = 0;
        let stored = if self.running {
            self.advance(before, now, carry, scene)
        } else {
            0
        };
        self.output(stored)
    }

    #[inline(always)]
    fn samples(&self, lines: u32, scene: &Scene) -> u32 {
        let mode = &self.mode;
        let levels = lines | scene.extouts << EXTOUTS | scene.ticks << TICKS;
        let index = (levels & mode.index != 0) as u32 ^ mode.index_inverted;
        let extin = (scene.inputs >> self.route) as u32 & 1 ^ mode.extin_inverted;
        lines & (A | B) | index << 2 | extin << 3
    }

    /// The step of a running channel. The answer is the reasons of the capture that it stored.
    #[inline(always)]
    fn advance(&mut self, before: u32, now: u32, carry: i32, scene: &Scene) -> u32 {
        let mode = &self.mode;
        let found = &TRANSITIONS[mode.clock as usize & 7][(before | now << 4) as usize & 255];
        let mut events = u32::from(found.events);
        if events & mode.arms != 0 {
            self.armed = true;
        }
        if events & mode.disarms != 0 {
            self.armed = false;
        }
        let d = match mode.clock {
            2 => scene.timestamp_rises as i32,
            4 => carry,
            _ => i32::from(found.d),
        };
        let free = self.armed & (mode.count_gate & !now == 0);
        if (d != 0) & free {
            events |= self.count_on(if mode.reversed { -d } else { d });
        }
        let caught = events & self.mask;
        let stored = caught != 0 && self.capture(scene.timestamp, caught);
        if events & self.mode.preloads != 0 && self.mode.preload_gate & !now == 0 {
            self.preload();
        }
        if stored { caught } else { 0 }
    }

    /// Adds 1 or -1 to the count. The answer is the matches.
    fn count_on(&mut self, d: i32) -> u32 {
        let matches = self.add(d);
        if matches & self.mode.disarms != 0 {
            self.armed = false;
        }
        matches
    }

    /// ExtOut after a step that stored a capture of these reasons.
    fn output(&self, stored: u32) -> u32 {
        let levels = stored & (MATCH0 | MATCH1)
            | (self.second as u32) << 2
            | if self.count == 0 {
                AT_ZERO
            } else {
                NOT_AT_ZERO
            };
        (levels & self.mode.output != 0) as u32 ^ self.mode.output_inverted
    }
}

/// What the samples of two steps say by themselves.
#[derive(Clone, Copy)]
struct Transition {
    /// Edges of the index and of ExtIn, an index that is high, a quadrature error.
    events: u16,
    /// The difference by K 0, 1, 3 and 5 to 7.
    d: i8,
}

/// By K and the samples: the earlier ones in bits 0 to 3 of the place, the present ones above.
static TRANSITIONS: [[Transition; 256]; 8] = transitions();

const fn transitions() -> [[Transition; 256]; 8] {
    let mut table = [[Transition { events: 0, d: 0 }; 256]; 8];
    let mut i = 0;
    while i < 8 * 256 {
        let (k, place) = (i / 256, i % 256);
        table[k][place] = transition(k, place as u32 & 15, place as u32 >> 4);
        i += 1;
    }
    table
}

const fn transition(k: usize, before: u32, now: u32) -> Transition {
    let (rises, falls) = (now & !before, before & !now);
    let mut events = 0;
    if falls & INDEX != 0 {
        events |= INDEX_FALLS;
    }
    if rises & INDEX != 0 {
        events |= INDEX_RISES;
    }
    if falls & EXTIN != 0 {
        events |= EXTIN_FALLS;
    }
    if rises & EXTIN != 0 {
        events |= EXTIN_RISES;
    }
    if now & INDEX != 0 {
        events |= INDEX_HIGH;
    }
    if k >= 5 && (before ^ now) & (A | B) == A | B {
        events |= ERROR;
    }
    let d = match k {
        0 => (rises & A != 0) as i8,
        1 => (falls & A != 0) as i8,
        3 => 1,
        5 if (before | now) & B == 0 => turn(before, now),
        6 if (before ^ now) & A != 0 => turn(before, now),
        7 => turn(before, now),
        _ => 0,
    };
    Transition {
        events: events as u16,
        d,
    }
}

/// The quadrature count. (A, B) goes forward through 00, 10, 11, 01.
const fn turn(before: u32, now: u32) -> i8 {
    const PHASE: [u32; 4] = [0, 1, 3, 2];
    let from = PHASE[(before & (A | B)) as usize];
    let to = PHASE[(now & (A | B)) as usize];
    match to.wrapping_sub(from) & 3 {
        1 => 1,
        3 => -1,
        _ => 0,
    }
}
