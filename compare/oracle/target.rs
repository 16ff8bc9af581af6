//! What mode 2 puts in mode 1's line for a branch, in place of `$` and what follows it: the target.

use crate::record::Record;
use crate::straight::is_short_branch;
use core::fmt;

/// Start address, length and signed distance, modulo 2^32. The distance of a short branch has 8 bits.
fn target(record: &Record) -> u32 {
    let distance = if is_short_branch(record) { record.imm as i8 as i64 } else { record.imm as i32 as i64 };
    let sum = record.start as i64 + record.length as i64 + distance;
    sum.rem_euclid(1 << 32) as u32
}

/// Eight digits and h, with a 0 in front of a letter.
pub(crate) fn numeral(record: &Record, out: &mut impl fmt::Write) -> fmt::Result {
    let target = target(record);
    write!(out, "{}{target:08X}h", if target >= 0xA000_0000 { "0" } else { "" })
}
