//! From what the published crate says of an instruction to document 01's record.

use oracle::{Record, Slot};
use yaxpeax_x86::protected_mode::records::Fields;

pub fn record_of(opcode: u16, parts: &Fields) -> Record {
    let slot = |[kind, segment, first, second, scale, mask]: [u8; 6]| Slot { kind, segment, first, second, scale, mask };
    Record {
        opcode,
        flags: parts.flags,
        length: parts.length,
        start: 0,
        mem_size: parts.mem_size,
        imm: parts.imm,
        disp: parts.disp as i32,
        count: parts.count,
        slots: parts.slots.map(slot),
        length_bits: parts.length_bits,
        tail: parts.tail,
    }
}
