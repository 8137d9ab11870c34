//! The mode word of a channel and its fields.

#[derive(Clone, Copy)]
pub struct Word(pub u32);

impl Word {
    /// What the index is taken from.
    pub fn xs(self) -> u32 {
        self.0 & 15
    }

    /// The clock.
    pub fn k(self) -> u32 {
        self.0 >> 4 & 7
    }

    /// What disarms.
    pub fn td(self) -> u32 {
        self.0 >> 7 & 3
    }

    /// What arms.
    pub fn te(self) -> u32 {
        self.0 >> 9 & 3
    }

    /// The events that ask for a preload: bits 11 to 15, which stand in the order of the reasons.
    pub fn tp(self) -> u32 {
        self.0 >> 11 & 31
    }

    /// A high index asks for a preload.
    pub fn tp_index_high(self) -> bool {
        self.0 >> 16 & 1 != 0
    }

    /// A start asks for a preload.
    pub fn tp_start(self) -> bool {
        self.0 >> 24 & 1 != 0
    }

    /// ExtOut is inverted.
    pub fn op(self) -> bool {
        self.0 >> 17 & 1 != 0
    }

    /// What ExtOut shows.
    pub fn om(self) -> u32 {
        self.0 >> 18 & 7
    }

    /// A preload selects the other register.
    pub fn bp(self) -> bool {
        self.0 >> 21 & 1 != 0
    }

    /// The difference is reversed.
    pub fn ud(self) -> bool {
        self.0 >> 22 & 1 != 0
    }

    /// A preload needs a count of 0.
    pub fn nr(self) -> bool {
        self.0 >> 23 & 1 != 0
    }

    /// What ExtIn gates.
    pub fn im(self) -> u32 {
        self.0 >> 25 & 3
    }

    /// ExtIn is inverted.
    pub fn ip(self) -> bool {
        self.0 >> 27 & 1 != 0
    }

    /// Whether call 1 takes the word.
    pub fn is_good(self) -> bool {
        self.td() < 3 && self.te() < 3 && self.om() < 5 && self.im() < 3 && self.0 >> 28 == 0
    }
}
