//! What is compared and measured: the proved code and the two Rust models.
use crate::model::channel::Mode;
use crate::model::{Plain, Tuned};

#[derive(Clone, Copy, PartialEq, Eq)]
pub enum Side {
    Proved,
    Plain,
    Tuned,
}

/// The order in which numbers of all sides stand.
pub const SIDES: [Side; 3] = [Side::Proved, Side::Plain, Side::Tuned];

impl Side {
    pub fn name(self) -> &'static str {
        match self {
            Side::Proved => "proved",
            Side::Plain => Plain::NAME,
            Side::Tuned => Tuned::NAME,
        }
    }

    pub fn named(name: &str) -> Result<Side, String> {
        let side = SIDES.into_iter().find(|side| side.name() == name);
        side.ok_or(format!("no side {name}"))
    }
}
