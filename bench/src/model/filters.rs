//! The noise filters of the pins, a number for each pin.
use super::PINS;

#[derive(Clone, Copy)]
pub struct Filters {
    filter: [u16; PINS as usize],
    /// For how many steps in a row the raw level has differed from the filtered one.
    wait: [u16; PINS as usize],
    /// The pins whose filter is above 0, and those that wait.
    filtering: u64,
    waiting: u64,
}

impl Filters {
    pub fn reset() -> Filters {
        Filters {
            filter: [0; PINS as usize],
            wait: [0; PINS as usize],
            filtering: 0,
            waiting: 0,
        }
    }

    /// The filter and the wait of a pin.
    pub fn of(&self, pin: usize) -> (u16, u16) {
        (self.filter[pin], self.wait[pin])
    }

    /// Writes both.
    pub fn put(&mut self, pin: usize, filter: u16, wait: u16) {
        self.filter[pin] = filter;
        self.wait[pin] = wait;
        let bit = 1 << pin;
        self.filtering = self.filtering & !bit | u64::from(filter > 0) << pin;
        self.waiting = self.waiting & !bit | u64::from(wait > 0) << pin;
    }

    /// A step: the filtered levels, from the raw ones and the filtered ones before.
    #[inline]
    pub fn step(&mut self, raw: u64, level: u64) -> u64 {
        let differing = (raw ^ level) & self.filtering;
        if differing | self.waiting == 0 {
            return raw;
        }
        let mut held = 0;
        for pin in places(differing | self.waiting) {
            let differs = differing >> pin & 1 != 0;
            if differs && self.wait[pin] < self.filter[pin] {
                self.wait[pin] += 1;
                held |= 1 << pin;
            } else {
                self.wait[pin] = 0;
            }
        }
        self.waiting = held;
        raw & !held | level & held
    }
}

/// The places of the bits of a word that are 1.
fn places(mut word: u64) -> impl Iterator<Item = usize> {
    std::iter::from_fn(move || {
        let lowest = (word != 0).then(|| word.trailing_zeros() as usize)?;
        word &= word - 1;
        Some(lowest)
    })
}
