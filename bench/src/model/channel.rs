//! One channel, but for its step: what it holds, its start, its captures and its preloads.
use super::queue::{Capture, Queue};
use super::word::Word;
use super::CHANNELS;

/// The route that is always 0.
pub const NO_ROUTE: u32 = 54;

/// Bits of the samples that a channel keeps from step to step.
pub const A: u32 = 1 << 0;
pub const B: u32 = 1 << 1;
pub const INDEX: u32 = 1 << 2;
pub const EXTIN: u32 = 1 << 3;

/// The bit of IX in a channel's lines; those of A and B are as above.
pub const IX: u32 = 1 << 2;

/// Reason bits.
pub const MATCH0: u32 = 1 << 0;
pub const MATCH1: u32 = 1 << 1;
pub const ZERO: u32 = 1 << 2;
pub const INDEX_FALLS: u32 = 1 << 3;
pub const INDEX_RISES: u32 = 1 << 4;
pub const EXTIN_FALLS: u32 = 1 << 5;
pub const EXTIN_RISES: u32 = 1 << 6;
pub const SOFT: u32 = 1 << 7;
pub const ERROR: u32 = 1 << 8;

/// What tells the models apart: the mode as a channel holds it, and the step of the channels.
pub trait Mode: Copy {
    /// What the model is called.
    const NAME: &'static str;

    fn new(word: Word) -> Self;

    fn word(&self) -> Word;

    /// A step of all channels with their lines `v`, three bits for each; a channel gets the carry
    /// that its neighbour had. The answer is the ExtOuts, a bit for each.
    fn step(channels: &mut [Channel<Self>; CHANNELS], v: u32, scene: &Scene) -> u32;
}

/// What a step shows to all channels.
pub struct Scene {
    pub timestamp: u32,
    pub timestamp_rises: bool,
    /// The ExtOuts of the last step, a bit for each channel.
    pub extouts: u32,
    /// The ticks, XS 8 in bit 0.
    pub ticks: u32,
    /// The levels of pins and virtual outputs: the bit of each route.
    pub inputs: u64,
}

#[derive(Clone, Copy)]
pub struct Channel<M> {
    pub mode: M,
    pub preloads: [u32; 2],
    pub compares: [u32; 2],
    pub route: u32,
    pub mask: u32,
    pub count: u32,
    pub running: bool,
    pub armed: bool,
    /// Preload 1 is the selected one.
    pub second: bool,
    /// A, B, index and ExtIn of the last step.
    pub kept: u32,
    pub carry: i32,
    pub queue: Queue,
}

impl<M: Mode> Channel<M> {
    pub fn reset() -> Channel<M> {
        Channel {
            mode: M::new(Word(0)),
            preloads: [0; 2],
            compares: [0; 2],
            route: NO_ROUTE,
            mask: 0,
            count: 0,
            running: false,
            armed: false,
            second: false,
            kept: 0,
            carry: 0,
            queue: Queue::default(),
        }
    }

    pub fn set_mode(&mut self, word: u32) {
        self.mode = M::new(Word(word));
        self.second = false;
    }

    pub fn start(&mut self) {
        if self.running {
            return;
        }
        self.running = true;
        self.armed = self.mode.word().te() == 0;
        if self.mode.word().tp_start() {
            self.preload();
        }
    }

    /// Adds 1 or -1 to the count; a wrap is the carry. The answer is the matches.
    pub fn add(&mut self, d: i32) -> u32 {
        self.count = self.count.wrapping_add(d as u32);
        let wrapped = if d > 0 { 0 } else { u32::MAX };
        if self.count == wrapped {
            self.carry = d;
        }
        (self.count == self.compares[0]) as u32
            | ((self.count == self.compares[1]) as u32) << 1
            | ((self.count == 0) as u32) << 2
    }

    /// Whether the capture is stored.
    pub fn capture(&mut self, timestamp: u32, reason: u32) -> bool {
        self.queue.push(Capture {
            count: self.count,
            timestamp,
            reason,
        })
    }

    /// Copies the selected preload, if NR allows it.
    pub fn preload(&mut self) {
        let word = self.mode.word();
        if word.nr() && self.count != 0 {
            return;
        }
        self.count = self.preloads[self.second as usize];
        self.second ^= word.bp();
        self.armed |= word.te() == 2;
    }

    pub fn status(&self) -> u32 {
        self.running as u32 | (self.armed as u32) << 1 | (self.second as u32) << 2
    }
}
