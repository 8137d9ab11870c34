//! The plain model: the mode stays one word, whose fields are taken where they are used.
use super::channel::*;
use super::word::Word;
use super::CHANNELS;

#[derive(Clone, Copy)]
pub struct Plain {
    word: Word,
}

impl Mode for Plain {
    const NAME: &'static str = "plain";

    fn new(word: Word) -> Plain {
        Plain { word }
    }

    fn word(&self) -> Word {
        self.word
    }

    fn step(channels: &mut [Channel<Plain>; CHANNELS], v: u32, scene: &Scene) -> u32 {
        let mut extouts = 0;
        let mut carry = channels[CHANNELS - 1].carry;
        for (c, channel) in channels.iter_mut().enumerate() {
            let own = channel.carry;
            let extout = channel.step(v >> (3 * c), carry, scene);
            extouts |= (extout as u32) << c;
            carry = own;
        }
        extouts
    }
}

impl Channel<Plain> {
    /// One step with A, B and IX in the low bits of `lines`, and the neighbour's carry. The answer
    /// is ExtOut.
    fn step(&mut self, lines: u32, carry: i32, scene: &Scene) -> bool {
        let before = self.kept;
        self.kept = self.samples(lines, scene);
        self.carry = 0;
        let stored = if self.running {
            self.advance(before, carry, scene)
        } else {
            0
        };
        self.extout(stored)
    }

    fn samples(&self, lines: u32, scene: &Scene) -> u32 {
        let word = self.mode.word;
        let index = match word.xs() {
            0 => lines & IX != 0,
            1 => lines & IX == 0,
            xs @ 2..=7 => scene.extouts >> (xs - 2) & 1 != 0,
            xs => scene.ticks >> (xs - 8) & 1 != 0,
        };
        let extin = (scene.inputs >> self.route & 1 != 0) != word.ip();
        lines & (A | B) | (index as u32) << 2 | (extin as u32) << 3
    }

    /// The step of a running channel from the samples `before` to those kept now. The answer is the
    /// reasons of the capture that it stored.
    fn advance(&mut self, before: u32, carry: i32, scene: &Scene) -> u32 {
        let word = self.mode.word;
        let now = self.kept;
        let mut reasons = edges(before, now);
        if word.te() == 1 && reasons & INDEX_RISES != 0 {
            self.armed = true;
        }
        if word.td() == 1 && reasons & INDEX_FALLS != 0 {
            self.armed = false;
        }
        if word.k() >= 5 && (before ^ now) & (A | B) == A | B {
            reasons |= ERROR;
        }
        let d = self.difference(before, carry, scene);
        if d != 0 {
            reasons |= self.add(d);
            if word.td() == 2 && reasons & ZERO != 0 {
                self.armed = false;
            }
        }
        let caught = reasons & self.mask;
        let stored = caught != 0 && self.capture(scene.timestamp, caught);
        let asked = reasons & word.tp() != 0 || word.tp_index_high() && now & INDEX != 0;
        let held_off = word.im() == 2 && now & EXTIN == 0;
        if asked && !held_off {
            self.preload();
        }
        if stored { caught } else { 0 }
    }

    /// What the step adds to the count: -1, 0 or 1.
    fn difference(&self, before: u32, carry: i32, scene: &Scene) -> i32 {
        let word = self.mode.word;
        let now = self.kept;
        let turn = QUADRATURE[(before & (A | B)) as usize][(now & (A | B)) as usize];
        let d = match word.k() {
            0 => (now & !before & A != 0) as i32,
            1 => (before & !now & A != 0) as i32,
            2 => scene.timestamp_rises as i32,
            3 => 1,
            4 => carry,
            // Only between 00 and 10.
            5 => turn * ((before | now) & B == 0) as i32,
            // Only where A changes.
            6 => turn * ((before ^ now) & A != 0) as i32,
            _ => turn,
        };
        let gated = word.im() == 1 && now & EXTIN == 0;
        if gated || !self.armed {
            0
        } else if word.ud() {
            -d
        } else {
            d
        }
    }

    /// ExtOut after a step that stored a capture of these reasons.
    fn extout(&self, stored: u32) -> bool {
        let word = self.mode.word;
        let level = match word.om() {
            1 => stored & (MATCH0 | MATCH1) != 0,
            2 => self.second,
            3 => self.count != 0,
            4 => self.count == 0,
            _ => false,
        };
        level != word.op()
    }
}

/// The reasons that edges of the index and of ExtIn are.
fn edges(before: u32, now: u32) -> u32 {
    let rises = now & !before;
    let falls = before & !now;
    let mut reasons = 0;
    if falls & INDEX != 0 {
        reasons |= INDEX_FALLS;
    }
    if rises & INDEX != 0 {
        reasons |= INDEX_RISES;
    }
    if falls & EXTIN != 0 {
        reasons |= EXTIN_FALLS;
    }
    if rises & EXTIN != 0 {
        reasons |= EXTIN_RISES;
    }
    reasons
}

/// The quadrature count by the earlier and the present lines; A is bit 0 and B bit 1 of each. The
/// rows and columns are (A, B) = 00, 10, 01, 11.
const QUADRATURE: [[i32; 4]; 4] = [[0, 1, -1, 0], [-1, 0, 0, 1], [1, 0, 0, -1], [0, -1, 1, 0]];
