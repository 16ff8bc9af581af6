//! EVEX as far as a record has it: the broadcast flag, the length bits, and the rounding that they stand for.

use crate::record::Record;

/// 000 names it for masked registers, which no record has.
#[allow(dead_code)]
pub(crate) enum MergeMode {
    Merge,
    Zero,
}

/// How a tail of 2 rounds, by the length bits: the Intel manual's order.
#[derive(Clone, Copy)]
pub(crate) enum SaeMode {
    Nearest,
    Down,
    Up,
    Zero,
}

impl SaeMode {
    pub(crate) fn from(l: bool, lp: bool) -> SaeMode {
        match (lp, l) {
            (false, false) => SaeMode::Nearest,
            (false, true) => SaeMode::Down,
            (true, false) => SaeMode::Up,
            (true, true) => SaeMode::Zero,
        }
    }
}

/// What an extended record has and no other.
#[derive(Clone, Copy)]
pub(crate) struct Evex {
    broadcast: bool,
    length_bits: u8,
}

impl Evex {
    pub(super) fn of(record: &Record) -> Option<Evex> {
        record.is_extended().then(|| Evex { broadcast: record.broadcasts(), length_bits: record.length_bits })
    }
    pub(crate) fn vex(&self) -> &Evex {
        self
    }
    pub(crate) fn l(&self) -> bool {
        self.length_bits & 1 != 0
    }
    pub(crate) fn lp(&self) -> bool {
        self.length_bits & 2 != 0
    }
    pub(crate) fn broadcast(&self) -> bool {
        self.broadcast
    }
}
