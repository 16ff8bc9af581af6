//! A record body's fields in either version, and answers 2 and 3.

use crate::opcodes::OPCODES;
use core::ops::RangeInclusive;

/// The opcodes whose records are extended whatever their operands are: the VPSCATTERs and all after them.
const VECTOR_OPCODES: RangeInclusive<u16> = 154..=175;
const SCATTERS: RangeInclusive<u16> = 154..=157;

/// The kinds with a mask, 11 to 16 once more.
const MASKED_KINDS: RangeInclusive<u8> = 17..=22;

/// In extended records: the flag that puts `{1toN}` on memory operands.
const BROADCAST: u8 = 0x40;

/// One operand's five bytes, or six. It is as wide as a word, so that `fast` copies it in one go.
#[derive(Clone, Copy, Debug, Default, PartialEq, Eq)]
#[repr(align(8))]
pub struct Slot {
    pub kind: u8,
    pub segment: u8,
    pub first: u8,
    pub second: u8,
    pub scale: u8,
    /// the sixth byte, of masked kinds alone; else 0
    pub mask: u8,
}

impl Slot {
    pub fn is_register(&self) -> bool {
        matches!(self.kind, 1 | 2)
    }

    pub fn is_memory(&self) -> bool {
        matches!(self.kind, 9..=22)
    }

    pub fn is_masked(&self) -> bool {
        MASKED_KINDS.contains(&self.kind)
    }

    pub fn bank(&self) -> u8 {
        self.first / 8
    }

    /// The width in bytes of what the operand holds; memory has none.
    pub fn width(&self) -> Option<u8> {
        match self.kind {
            1 | 2 => Some([4, 2, 1, 2, 10, 8, 16, 32, 64, 8][self.bank() as usize]),
            3 | 6 => Some(1),
            4 | 7 => Some(2),
            5 | 8 => Some(4),
            _ => None,
        }
    }

    /// The operand that starts here in a body, which has it whole. A masked kind has a sixth byte.
    fn read(bytes: &[u8]) -> Slot {
        let &[kind, segment, first, second, scale, ref rest @ ..] = bytes else {
            unreachable!("the body's length is right")
        };
        let mask = if MASKED_KINDS.contains(&kind) { rest[0] } else { 0 };
        Slot { kind, segment, first, second, scale, mask }
    }

    /// Whether the bytes keep the record rules: each byte that the kind uses is in its range, each other
    /// byte is 0. `extended` is whether the record has banks 8 and 9, `vector_index` whether an index may be a
    /// vector register here.
    fn keeps_rules(&self, extended: bool, vector_index: bool) -> bool {
        let segment = self.segment <= 6;
        let index = |byte| addresses(byte) || vector_index && matches!(byte / 8, 6..=8);
        let unmasked = if self.is_masked() { self.kind - 6 } else { self.kind };
        let kept = match unmasked {
            1 | 2 => {
                self.segment == 0
                    && is_register(self.first)
                    && (extended || self.bank() < 8)
                    && self.second == 0
                    && self.scale == 0
            }
            3..=8 => self.segment == 0 && self.first == 0 && self.second == 0 && self.scale == 0,
            9 | 10 => segment && self.first == 0 && self.second == 0 && self.scale == 0,
            11 | 12 => segment && addresses(self.first) && self.second == 0 && self.scale == 0,
            13 | 14 => segment && index(self.first) && self.second == 0 && is_scale(self.scale),
            15 | 16 => segment && addresses(self.first) && index(self.second) && is_scale(self.scale),
            _ => false,
        };
        kept && (!self.is_masked() || is_mask(self.mask))
    }
}

/// Ten banks of eight, save that bank 3 ends with gs.
pub fn is_register(byte: u8) -> bool {
    byte < 80 && byte != 30 && byte != 31
}

/// Brackets take banks 0 and 1 only.
fn addresses(byte: u8) -> bool {
    byte < 16
}

/// k1 to k7: k0 stands for no mask.
fn is_mask(byte: u8) -> bool {
    matches!(byte, 73..=79)
}

fn is_scale(byte: u8) -> bool {
    matches!(byte, 1 | 2 | 4 | 8)
}

/// The fields of a body that answers 2 and 3 let through. Slots at and past `count` are zero.
#[derive(Clone, Copy, Debug, Default)]
pub struct Record {
    pub opcode: u16,
    pub flags: u8,
    pub length: u8,
    /// of version 2: the address of the instruction's first byte; else 0
    pub start: u32,
    pub mem_size: u8,
    pub imm: u32,
    pub disp: i32,
    pub count: u8,
    pub slots: [Slot; 4],
    /// of extended records: bit 0 l, bit 1 lp; else 0
    pub length_bits: u8,
    /// of extended records: 0 none, 1 `{sae}`, 2 a rounding word; else 0
    pub tail: u8,
}

/// So many bytes of a body stand before the start address, or before what follows where there is none.
const FRONT: usize = 4;

/// A version 1 body with a start address put in, which makes it one of version 2. Of a body that ends before its
/// place the address is the end.
#[cfg(not(bare))]
pub fn with_start(body: &[u8], start: u32) -> Vec<u8> {
    let (front, rest) = body.split_at(FRONT.min(body.len()));
    [front, &start.to_be_bytes(), rest].concat()
}

/// A body's front (opcode, flags, length), its start address, and the rest from mem_size on. None where it is too
/// short for the first two.
fn parts(version: u32, body: &[u8]) -> Option<([u8; FRONT], u32, &[u8])> {
    let (&front, behind) = body.split_first_chunk::<FRONT>()?;
    if version == 1 {
        return Some((front, 0, behind));
    }
    let (&start, rest) = behind.split_first_chunk::<4>()?;
    Some((front, u32::from_be_bytes(start), rest))
}

/// In what follows the front and the start address: the count of operands, and the first of them.
const COUNT: usize = 9;
const OPERANDS: usize = 10;

/// Where the operands end, by the stored kinds one after the other, and whether the record is extended. None where
/// the body ends before a kind does.
fn operands_end(opcode: u16, rest: &[u8]) -> Option<(usize, bool)> {
    let mut end = OPERANDS;
    let mut extended = VECTOR_OPCODES.contains(&opcode);
    for _ in 0..rest[COUNT] {
        let masked = MASKED_KINDS.contains(rest.get(end)?);
        end += if masked { 6 } else { 5 };
        extended |= masked;
    }
    Some((end, extended))
}

impl Record {
    /// The fields, or answer 2 or 3. Answer 2 goes before 3, so the length is settled first, with
    /// the count and the kinds as they are stored.
    pub fn read(version: u32, body: &[u8]) -> Result<Record, u8> {
        let (front, start, rest) = parts(version, body).ok_or(2)?;
        if rest.len() < OPERANDS {
            return Err(2);
        }
        let opcode = u16::from_be_bytes([front[0], front[1]]);
        let (end, extended) = operands_end(opcode, rest).ok_or(2)?;
        if rest.len() != end + if extended { 2 } else { 0 } {
            return Err(2);
        }
        let mut record = Record {
            opcode,
            flags: front[2],
            length: front[3],
            start,
            mem_size: rest[0],
            imm: u32::from_be_bytes([rest[1], rest[2], rest[3], rest[4]]),
            disp: i32::from_be_bytes([rest[5], rest[6], rest[7], rest[8]]),
            count: rest[COUNT],
            ..Record::default()
        };
        if extended {
            record.length_bits = rest[end];
            record.tail = rest[end + 1];
        }
        let flags = if extended { 0x7f } else { 0x3f };
        let head = record.opcode < OPCODES
            && record.flags & !flags == 0
            && (1..=15).contains(&record.length)
            && record.count <= 4
            && record.length_bits <= 3
            && record.tail <= 2;
        if !head {
            return Err(3);
        }
        let mut at = OPERANDS;
        for place in 0..record.count as usize {
            let slot = Slot::read(&rest[at..]);
            at += if slot.is_masked() { 6 } else { 5 };
            let vector_index = place == 0 && SCATTERS.contains(&record.opcode) && !slot.is_masked();
            if !slot.keeps_rules(extended, vector_index) {
                return Err(3);
            }
            record.slots[place] = slot;
        }
        Ok(record)
    }

    /// The version 1 body that holds these fields, the first `count` slots in it.
    #[cfg(not(bare))]
    pub fn body(&self) -> Vec<u8> {
        let mut body = Vec::with_capacity(40);
        body.extend(self.opcode.to_be_bytes());
        body.extend([self.flags, self.length, self.mem_size]);
        body.extend(self.imm.to_be_bytes());
        body.extend(self.disp.to_be_bytes());
        body.push(self.count);
        for slot in self.slots.iter().take(self.count as usize) {
            body.extend([slot.kind, slot.segment, slot.first, slot.second, slot.scale]);
            if slot.is_masked() {
                body.push(slot.mask);
            }
        }
        if self.is_extended() {
            body.extend([self.length_bits, self.tail]);
        }
        body
    }

    /// Whether length bits and a tail follow the operands: by the opcode, or by a masked kind, be it shown or not.
    pub fn is_extended(&self) -> bool {
        VECTOR_OPCODES.contains(&self.opcode) || self.slots.iter().any(Slot::is_masked)
    }

    pub(crate) fn broadcasts(&self) -> bool {
        self.flags & BROADCAST != 0
    }

    /// The operand at a place below the count.
    pub(crate) fn slot(&self, place: usize) -> Option<&Slot> {
        self.slots.get(place).filter(|_| place < self.count as usize)
    }
}
