//! A record as the instruction that 000 is handed.

use super::evex::Evex;
use super::operands::{Operand, OperandSpec, OperandVisitor};
use super::{arch, RegSpec};
use crate::opcodes::Opcode;
use crate::record::{Record, Slot};

/// The flags byte, bit 0 the lowest, and what an extended record has beside it.
#[derive(Clone, Copy)]
pub(crate) struct Prefixes {
    flags: u8,
    evex: Option<Evex>,
}

impl Prefixes {
    fn bit(&self, bit: u8) -> bool {
        self.flags >> bit & 1 == 1
    }
    pub(crate) fn lock(&self) -> bool {
        self.bit(2)
    }
    pub(crate) fn rep(&self) -> bool {
        self.bit(3)
    }
    pub(crate) fn repnz(&self) -> bool {
        self.bit(4)
    }
    pub(crate) fn rep_any(&self) -> bool {
        self.rep() || self.repnz()
    }
    pub(crate) fn operand_size(&self) -> bool {
        self.bit(5)
    }
    pub(crate) fn evex(&self) -> Option<Evex> {
        self.evex
    }
    pub(crate) fn evex_unchecked(&self) -> Evex {
        self.evex.expect("000 asks for an EVEX prefix that is not there")
    }
}

#[derive(Clone, Copy)]
pub(crate) struct Segment(u8);

impl Segment {
    pub(crate) fn name(&self) -> &'static [u8; 2] {
        [b"es", b"cs", b"ss", b"ds", b"fs", b"gs"][self.0 as usize - 1]
    }
}

/// The registers that the crate's operands share: 0 the R place, 1 the M place, 3 the mask. 000 reads them in
/// three arms, and there it means a certain operand: to tell st(0) from the others, in the FADD arm the operand that
/// it has just found to be in the R place, in the FBLD arm operand 1 in the M place; and in the VPSCATTER arms the
/// mask, which is operand 1. Each place holds that operand's own register. Reading a place that no operand owns panics.
pub(crate) struct SharedRegisters([Option<RegSpec>; 4]);

impl SharedRegisters {
    fn of(slots: &[Slot; 4]) -> SharedRegisters {
        let own = |slot: &Slot| RegSpec::of(slot.first);
        SharedRegisters([
            slots[..2].iter().find(|slot| slot.kind == 1).map(own),
            Some(&slots[1]).filter(|slot| slot.kind == 2).map(own),
            None,
            Some(&slots[1]).filter(|slot| slot.is_register()).map(own),
        ])
    }
}

impl core::ops::Index<usize> for SharedRegisters {
    type Output = RegSpec;
    fn index(&self, place: usize) -> &RegSpec {
        self.0[place].as_ref().expect("000 reads a shared register that no operand owns")
    }
}

pub(crate) struct Instruction {
    pub(crate) opcode: Opcode,
    pub(crate) prefixes: Prefixes,
    pub(crate) operands: [OperandSpec; 4],
    pub(crate) operand_count: u8,
    pub(crate) regs: SharedRegisters,
    pub(crate) mem_size: u8,
    pub(crate) imm: u32,
    disp: i32,
    length: u8,
    slots: [Slot; 4],
}

impl arch::LengthedInstruction for Instruction {
    fn len(&self) -> u32 {
        self.length as u32
    }
}

impl Instruction {
    pub(crate) fn of(record: &Record) -> Instruction {
        Instruction {
            opcode: Opcode::numbered(record.opcode),
            prefixes: Prefixes { flags: record.flags, evex: Evex::of(record) },
            operands: [0, 1, 2, 3].map(|place| OperandSpec::of(record, place)),
            operand_count: record.count,
            regs: SharedRegisters::of(&record.slots),
            mem_size: record.mem_size,
            imm: record.imm,
            disp: record.disp,
            length: record.length,
            slots: record.slots,
        }
    }

    pub(crate) fn xacquire(&self) -> bool {
        self.prefixes.bit(0)
    }

    pub(crate) fn xrelease(&self) -> bool {
        self.prefixes.bit(1)
    }

    pub(crate) fn operand(&self, place: u8) -> Operand {
        let slot = &self.slots[place as usize];
        match slot.kind {
            1 | 2 => Operand::Register { reg: RegSpec::of(slot.first) },
            3 | 6 => Operand::Immediate { width: 1 },
            4 | 7 => Operand::Immediate { width: 2 },
            5 | 8 => Operand::Immediate { width: 4 },
            9..=22 => Operand::Memory,
            _ => Operand::Nothing,
        }
    }

    /// The operand's own segment, where the crate keeps one for the whole instruction.
    pub(crate) fn segment_override_for_op(&self, place: u8) -> Option<Segment> {
        match self.slots[place as usize].segment {
            0 => None,
            segment => Some(Segment(segment)),
        }
    }

    pub(crate) fn visit_operand<V: OperandVisitor>(
        &self,
        place: u8,
        visitor: &mut V,
    ) -> Result<V::Ok, V::Error> {
        let Slot { kind, scale, first, second, mask, .. } = self.slots[place as usize];
        let (first, second) = (|| RegSpec::of(first), || RegSpec::of(second));
        let mask = || RegSpec::of(mask);
        match kind {
            1 | 2 => visitor.visit_reg(first()),
            3 => visitor.visit_i8(self.imm as i8),
            4 => visitor.visit_i16(self.imm as i16),
            5 => visitor.visit_i32(self.imm as i32),
            6 => visitor.visit_u8(self.imm as u8),
            7 => visitor.visit_u16(self.imm as u16),
            8 => visitor.visit_u32(self.imm),
            9 => visitor.visit_abs_u16(self.disp as u16),
            10 => visitor.visit_abs_u32(self.disp as u32),
            11 => visitor.visit_deref(first()),
            12 => visitor.visit_disp(first(), self.disp),
            13 => visitor.visit_index_scale(first(), scale),
            14 => visitor.visit_index_scale_disp(first(), scale, self.disp),
            15 => visitor.visit_base_index_scale(first(), second(), scale),
            16 => visitor.visit_base_index_scale_disp(first(), second(), scale, self.disp),
            17 => visitor.visit_deref_masked(first(), mask()),
            18 => visitor.visit_disp_masked(first(), self.disp, mask()),
            19 => visitor.visit_index_scale_masked(first(), scale, mask()),
            20 => visitor.visit_index_scale_disp_masked(first(), scale, self.disp, mask()),
            21 => visitor.visit_base_index_scale_masked(first(), second(), scale, mask()),
            22 => visitor.visit_base_index_scale_disp_masked(first(), second(), scale, self.disp, mask()),
            _ => panic!("000 visits operand {place}, which is not there"),
        }
    }
}
