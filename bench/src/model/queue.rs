//! The capture queue of a channel.
use super::{refused, ACCEPTED};
use crate::event::Answer;

const QUEUE: usize = 16;

#[derive(Clone, Copy, Default)]
pub struct Capture {
    pub count: u32,
    pub timestamp: u32,
    pub reason: u32,
}

/// The captures of a channel: a ring whose oldest entry is at `first`.
#[derive(Clone, Copy, Default)]
pub struct Queue {
    ring: [Capture; QUEUE],
    first: usize,
    held: usize,
    pub lost: u32,
}

impl Queue {
    pub fn held(&self) -> usize {
        self.held
    }

    /// The entries, oldest first.
    pub fn entries(&self) -> impl Iterator<Item = &Capture> {
        (0..self.held).map(|i| &self.ring[(self.first + i) % QUEUE])
    }

    /// Whether the entry is stored; in a full queue it is lost.
    pub fn push(&mut self, capture: Capture) -> bool {
        if self.held == QUEUE {
            self.lost = self.lost.saturating_add(1);
            return false;
        }
        self.ring[(self.first + self.held) % QUEUE] = capture;
        self.held += 1;
        true
    }

    fn pop(&mut self) -> Option<Capture> {
        if self.held == 0 {
            return None;
        }
        let oldest = self.ring[self.first];
        self.first = (self.first + 1) % QUEUE;
        self.held -= 1;
        Some(oldest)
    }

    /// Call 11: the lost count, or the oldest entry.
    pub fn read(&mut self) -> Answer {
        if self.lost != 0 {
            let value = std::mem::take(&mut self.lost);
            return Answer {
                result: 6,
                value,
                ..ACCEPTED
            };
        }
        match self.pop() {
            None => refused(5),
            Some(oldest) => Answer {
                result: 0,
                value: oldest.count,
                timestamp: oldest.timestamp,
                reason: oldest.reason,
            },
        }
    }
}
