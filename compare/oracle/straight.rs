//! What mode 1 puts anew in 000's line for a branch, which is prefix words and name, a blank, perhaps `near ptr `, and
//! `$` with sign and numeral: the word before `$`, and the sum of an 8-bit distance. It has no other `$`.

use crate::opcodes::Opcode::{self, CALL, XBEGIN};
use crate::record::Record;
use core::fmt;

/// Relative branches with kind 3 or 5 as operand 0, and XBEGIN with kind 5.
pub fn is_branch(record: &Record) -> bool {
    match record.slot(0).map(|slot| slot.kind) {
        Some(3) => record.opcode < 22,
        Some(5) => record.opcode <= 22,
        _ => false,
    }
}

pub(crate) fn is_short_branch(record: &Record) -> bool {
    is_branch(record) && record.slots[0].kind == 3
}

/// The word that keeps a branch's length, whatever its sum is. CALL and XBEGIN have no short form and need none.
pub(crate) fn word(record: &Record) -> &'static str {
    match Opcode::numbered(record.opcode) {
        CALL | XBEGIN => "",
        _ if is_short_branch(record) => "short ",
        _ => "near ptr ",
    }
}

/// Where the word stands in 000's line for a branch, be it there or not: its first byte, and the `$` after it.
pub(crate) fn place(line: &[u8]) -> (usize, usize) {
    let dollar = line.iter().rposition(|&byte| byte == b'$').expect("a branch has a `$`");
    let before = &line[..dollar];
    (before.strip_suffix(b"near ptr ").unwrap_or(before).len(), dollar)
}

/// Sign and numeral of a short distance plus the length, with nothing wrapped.
pub(crate) fn whole_sum(record: &Record, out: &mut impl fmt::Write) -> fmt::Result {
    let sum = record.imm as i8 as i32 + record.length as i32;
    let size = sum.unsigned_abs();
    let top = core::iter::successors(Some(size), |&rest| (rest > 15).then_some(rest >> 4)).last();
    write!(
        out,
        "{}{}{:X}{}",
        if sum < 0 { '-' } else { '+' },
        if top > Some(9) { "0" } else { "" },
        size,
        if size > 9 { "h" } else { "" },
    )
}
