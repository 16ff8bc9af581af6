//! A body's fields.

/// One operand. A masked kind, 17 to 22, is kept as the kind without its mask, 11 to 16, and the mask beside it.
#[derive(Clone, Copy)]
pub(crate) struct Operand {
    /// 0 where the record has no such operand
    pub(crate) kind: u8,
    pub(crate) segment: u8,
    pub(crate) first: u8,
    pub(crate) second: u8,
    pub(crate) scale: u8,
    /// the mask's register byte, or 0
    pub(crate) mask: u8,
}

impl Operand {
    const NONE: Operand = Operand { kind: 0, segment: 0, first: 0, second: 0, scale: 0, mask: 0 };

    #[inline]
    pub(crate) fn is_register(&self) -> bool {
        self.kind == 1 || self.kind == 2
    }

    #[inline]
    pub(crate) fn is_memory(&self) -> bool {
        self.kind >= 9
    }

    #[inline]
    pub(crate) fn bank(&self) -> u8 {
        self.first / 8
    }

    /// In bytes; 0 of memory.
    pub(crate) fn width(&self) -> u8 {
        match self.kind {
            1 | 2 => [4, 2, 1, 2, 10, 8, 16, 32, 64, 8][self.bank() as usize],
            3 | 6 => 1,
            4 | 7 => 2,
            5 | 8 => 4,
            _ => 0,
        }
    }

    /// Five bytes of a kind without a mask. Of register bytes those below `registers` are taken, and of indices those
    /// of banks 0 and 1, and the vector ones if asked.
    #[inline]
    fn refused(&self, registers: u8, vector_index: bool) -> bool {
        let Operand { kind, segment, first, second, scale, .. } = *self;
        let index = |byte: u8| byte < 16 || vector_index && (48..72).contains(&byte);
        match kind {
            1 | 2 => segment | second | scale != 0 || first >= registers || first & 0xfe == 30,
            3..=8 => segment | first | second | scale != 0,
            9 | 10 => segment > 6 || first | second | scale != 0,
            11 | 12 => segment > 6 || first >= 16 || second | scale != 0,
            13 | 14 => segment > 6 || !index(first) || second != 0 || !one_of_four(scale),
            15 | 16 => segment > 6 || first >= 16 || !index(second) || !one_of_four(scale),
            _ => true,
        }
    }
}

/// 1, 2, 4 or 8
#[inline]
fn one_of_four(scale: u8) -> bool {
    scale < 16 && scale.is_power_of_two()
}

pub(crate) struct Record {
    pub(crate) opcode: u8,
    /// bit 6, the broadcast, in extended records alone
    pub(crate) flags: u8,
    pub(crate) length: u8,
    /// 0 in version 1, which has none
    pub(crate) start: u32,
    pub(crate) mem_size: u8,
    pub(crate) imm: u32,
    pub(crate) disp: u32,
    pub(crate) count: u8,
    pub(crate) operands: [Operand; 4],
    /// both 0 where the record is not extended
    pub(crate) length_bits: u8,
    pub(crate) tail: u8,
}

/// The first opcode of which every record is extended, and the first number of none.
const EXTENDED: u16 = 154;
const OPCODES: u16 = 176;

/// The front of a body: opcode, flags and length. In version 2 the start address follows it.
pub(crate) type Front = [u8; 4];

/// What follows these and stands before the operands: mem_size, imm, disp and the count.
type Head = [u8; 10];

impl Record {
    #[inline]
    fn of(front: Front, start: u32, head: &Head, operands: [Operand; 4], length_bits: u8, tail: u8) -> Record {
        Record {
            opcode: front[1],
            flags: front[2],
            length: front[3],
            start,
            mem_size: head[0],
            imm: u32::from_be_bytes([head[1], head[2], head[3], head[4]]),
            disp: u32::from_be_bytes([head[5], head[6], head[7], head[8]]),
            count: head[9],
            operands,
            length_bits,
            tail,
        }
    }

    /// A record that is neither extended nor refused with 2 or 3, as most are.
    #[inline]
    pub(crate) fn read_plain(front: Front, start: u32, rest: &[u8]) -> Option<Record> {
        let (head, slots) = rest.split_first_chunk::<10>()?;
        let opcode = u16::from_be_bytes([front[0], front[1]]);
        if slots.len() != 5 * head[9] as usize
            || opcode >= EXTENDED
            || front[2] >= 64
            || front[3].wrapping_sub(1) >= 15
            || head[9] > 4
        {
            return None;
        }
        let mut operands = [Operand::NONE; 4];
        for (operand, slot) in operands.iter_mut().zip(slots.chunks_exact(5)) {
            *operand = Operand {
                kind: slot[0],
                segment: slot[1],
                first: slot[2],
                second: slot[3],
                scale: slot[4],
                mask: 0,
            };
            if operand.refused(64, false) {
                return None;
            }
        }
        Some(Record::of(front, start, head, operands, 0, 0))
    }

    /// Any record: the length by its kinds, then the fields.
    pub(crate) fn read(front: Front, start: u32, rest: &[u8]) -> Result<Record, u64> {
        let (head, slots) = rest.split_first_chunk::<10>().ok_or(2u64)?;
        let opcode = u16::from_be_bytes([front[0], front[1]]);
        let count = head[9];
        let mut extended = (EXTENDED..OPCODES).contains(&opcode);
        let mut end = 0;
        for _ in 0..count {
            let Some(kind) = slots.get(end) else {
                return Err(2);
            };
            let masked = (17..=22).contains(kind);
            end += 5 + masked as usize;
            extended |= masked;
        }
        if slots.len() != end + 2 * extended as usize {
            return Err(2);
        }
        let (length_bits, tail) = if extended { (slots[end], slots[end + 1]) } else { (0, 0) };
        let (flags, registers) = if extended { (128, 80) } else { (64, 64) };
        if opcode >= OPCODES || front[2] >= flags || !(1..16).contains(&front[3]) || count > 4 || length_bits > 3 || tail > 2 {
            return Err(3);
        }
        let mut operands = [Operand::NONE; 4];
        let mut at = 0;
        for (place, operand) in operands[..count as usize].iter_mut().enumerate() {
            let slot = &slots[at..];
            let masked = (17..=22).contains(&slot[0]);
            *operand = Operand {
                kind: if masked { slot[0] - 6 } else { slot[0] },
                segment: slot[1],
                first: slot[2],
                second: slot[3],
                scale: slot[4],
                mask: if masked { slot[5] } else { 0 },
            };
            // the VPSCATTERs are the first four of the vector opcodes
            let vector_index = place == 0 && !masked && (EXTENDED..EXTENDED + 4).contains(&opcode);
            if operand.refused(registers, vector_index) || masked && !(73..80).contains(&operand.mask) {
                return Err(3);
            }
            at += 5 + masked as usize;
        }
        Ok(Record::of(front, start, head, operands, length_bits, tail))
    }
}
