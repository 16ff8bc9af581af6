//! Operands as 000 sees them, and the visitor by which it prints them.

use super::{Instruction, MergeMode, RegSpec, SaeMode};
use crate::record::Record;

/// How an operand is encoded, as 000 asks about it. Each operand knows its place, since it has registers of its own.
/// In the crate an operand 0 that is encoded with a tail is of one of three further kinds; a record's tail stands
/// beside the kind, so that here operand 0 is of its own kind and of the tail's.
#[derive(Clone, Copy, Debug)]
pub(crate) struct OperandSpec {
    place: u8,
    /// document 01's; 0 where there is no such operand
    kind: u8,
    /// the record's, in operand 0; else 0
    tail: u8,
}

/// What 000 compares an operand's encoding with.
#[derive(Clone, Copy)]
pub(crate) enum Encoding {
    Kind(u8),
    Tail(u8),
}

#[allow(non_upper_case_globals)]
impl OperandSpec {
    pub(crate) const RegRRR: Encoding = Encoding::Kind(1);
    pub(crate) const ImmI8: Encoding = Encoding::Kind(3);
    pub(crate) const ImmI32: Encoding = Encoding::Kind(5);
    pub(crate) const RegRRR_maskmerge_sae: Encoding = Encoding::Tail(2);
    pub(crate) const RegRRR_maskmerge_sae_noround: Encoding = Encoding::Tail(1);
    pub(crate) const RegMMM_maskmerge_sae_noround: Encoding = Encoding::Tail(1);
}

impl PartialEq<Encoding> for OperandSpec {
    fn eq(&self, other: &Encoding) -> bool {
        match *other {
            Encoding::Kind(kind) => self.kind == kind,
            Encoding::Tail(tail) => self.tail == tail,
        }
    }
}

impl OperandSpec {
    pub(super) fn of(record: &Record, place: u8) -> OperandSpec {
        let tail = if place == 0 { record.tail } else { 0 };
        OperandSpec { place, kind: record.slots[place as usize].kind, tail }
    }

    pub(crate) fn is_memory(&self) -> bool {
        matches!(self.kind, 9..=22)
    }
}

/// 000 looks inside an operand for a register, and for how wide it is.
pub(crate) enum Operand {
    Register { reg: RegSpec },
    Immediate { width: u8 },
    Memory,
    Nothing,
}

impl Operand {
    pub(crate) fn from_spec(instruction: &Instruction, spec: OperandSpec) -> Operand {
        instruction.operand(spec.place)
    }

    /// In bytes. Memory has none.
    pub(crate) fn width(&self) -> Option<u8> {
        match self {
            Operand::Register { reg } => Some(reg.width()),
            Operand::Immediate { width } => Some(*width),
            Operand::Memory => None,
            Operand::Nothing => panic!("000 asks for the width of an operand that is not there"),
        }
    }
}

/// The visitor that 000 implements twice.
#[allow(dead_code)] // 000 has forms that no record has
pub(crate) trait OperandVisitor {
    type Ok;
    type Error;
    fn visit_reg(&mut self, reg: RegSpec) -> Result<Self::Ok, Self::Error>;
    fn visit_deref(&mut self, base: RegSpec) -> Result<Self::Ok, Self::Error>;
    fn visit_disp(&mut self, base: RegSpec, disp: i32) -> Result<Self::Ok, Self::Error>;
    fn visit_i8(&mut self, imm: i8) -> Result<Self::Ok, Self::Error>;
    fn visit_i16(&mut self, imm: i16) -> Result<Self::Ok, Self::Error>;
    fn visit_i32(&mut self, imm: i32) -> Result<Self::Ok, Self::Error>;
    fn visit_u8(&mut self, imm: u8) -> Result<Self::Ok, Self::Error>;
    fn visit_u16(&mut self, imm: u16) -> Result<Self::Ok, Self::Error>;
    fn visit_u32(&mut self, imm: u32) -> Result<Self::Ok, Self::Error>;
    fn visit_abs_u16(&mut self, address: u16) -> Result<Self::Ok, Self::Error>;
    fn visit_abs_u32(&mut self, address: u32) -> Result<Self::Ok, Self::Error>;
    fn visit_index_scale(&mut self, index: RegSpec, scale: u8) -> Result<Self::Ok, Self::Error>;
    fn visit_index_scale_disp(
        &mut self, index: RegSpec, scale: u8, disp: i32,
    ) -> Result<Self::Ok, Self::Error>;
    fn visit_base_index_scale(
        &mut self, base: RegSpec, index: RegSpec, scale: u8,
    ) -> Result<Self::Ok, Self::Error>;
    fn visit_base_index_scale_disp(
        &mut self, base: RegSpec, index: RegSpec, scale: u8, disp: i32,
    ) -> Result<Self::Ok, Self::Error>;
    fn visit_other(&mut self) -> Result<Self::Ok, Self::Error>;

    fn visit_deref_masked(&mut self, base: RegSpec, mask: RegSpec)
        -> Result<Self::Ok, Self::Error>;
    fn visit_disp_masked(
        &mut self, base: RegSpec, disp: i32, mask: RegSpec,
    ) -> Result<Self::Ok, Self::Error>;
    fn visit_index_scale_masked(
        &mut self, index: RegSpec, scale: u8, mask: RegSpec,
    ) -> Result<Self::Ok, Self::Error>;
    fn visit_index_scale_disp_masked(
        &mut self, index: RegSpec, scale: u8, disp: i32, mask: RegSpec,
    ) -> Result<Self::Ok, Self::Error>;
    fn visit_base_index_scale_masked(
        &mut self, base: RegSpec, index: RegSpec, scale: u8, mask: RegSpec,
    ) -> Result<Self::Ok, Self::Error>;
    fn visit_base_index_scale_disp_masked(
        &mut self, base: RegSpec, index: RegSpec, scale: u8, disp: i32, mask: RegSpec,
    ) -> Result<Self::Ok, Self::Error>;

    // far addresses, masked registers, and brackets without a scale: 000 has them, no record does
    fn visit_absolute_far_address(
        &mut self, segment: u16, address: u32,
    ) -> Result<Self::Ok, Self::Error>;
    fn visit_reg_mask_merge(
        &mut self, reg: RegSpec, mask: RegSpec, merge: MergeMode,
    ) -> Result<Self::Ok, Self::Error>;
    fn visit_reg_mask_merge_sae(
        &mut self, reg: RegSpec, mask: RegSpec, merge: MergeMode, sae: SaeMode,
    ) -> Result<Self::Ok, Self::Error>;
    fn visit_reg_mask_merge_sae_noround(
        &mut self, reg: RegSpec, mask: RegSpec, merge: MergeMode,
    ) -> Result<Self::Ok, Self::Error>;
    fn visit_base_index_masked(
        &mut self, base: RegSpec, index: RegSpec, mask: RegSpec,
    ) -> Result<Self::Ok, Self::Error>;
    fn visit_base_index_disp_masked(
        &mut self, base: RegSpec, index: RegSpec, disp: i32, mask: RegSpec,
    ) -> Result<Self::Ok, Self::Error>;
}
