//! Put beside the crate's own modules when `compare/decoder` builds it: from a decoded instruction to
//! document 01's record, and to 000's line. It stands inside the crate because an operand's place and
//! the shared fields are the crate's own affair.

use super::display::masm::contextualize;
use super::{Instruction, OperandSpec, RegSpec, RegisterBank, Segment};
use core::fmt;
use yaxpeax_arch::LengthedInstruction;

/// What version 2.0.0 has not: the shim's rules.
#[path = "../oracle/shim/rules.rs"]
mod rules;
pub(crate) use rules::DisplayRules;
use rules::NoRules;

/// 000's line, with the published crate's own names, labels and segment rules.
pub fn line<W: fmt::Write>(instruction: &Instruction, out: &mut W) -> fmt::Result {
    contextualize(instruction, &NoRules, &mut yaxpeax_arch::display::FmtSink::new(out))
}

/// A record's fields but for the opcode's number, which goes by name.
pub struct Fields {
    pub flags: u8,
    pub length: u8,
    pub mem_size: u8,
    pub imm: u32,
    pub disp: u32,
    pub count: u8,
    pub slots: [[u8; 6]; 4],
    pub length_bits: u8,
    pub tail: u8,
}

/// The record of an instruction, if document 01 or W-204 has one. A register with a mask of its own has none.
pub fn fields(instruction: &Instruction) -> Option<Fields> {
    let prefixes = &instruction.prefixes;
    let evex = prefixes.evex();
    let bits = [
        instruction.xacquire(),
        instruction.xrelease(),
        prefixes.lock(),
        prefixes.rep(),
        prefixes.repnz(),
        prefixes.operand_size(),
        evex.is_some_and(|evex| evex.broadcast()),
    ];
    let mut slots = [[0; 6]; 4];
    for place in 0..instruction.operand_count {
        slots[place as usize] = slot(instruction, place)?;
    }
    Some(Fields {
        flags: bits.iter().enumerate().map(|(bit, &set)| (set as u8) << bit).sum(),
        length: length(instruction) as u8,
        mem_size: instruction.mem_size,
        imm: instruction.imm,
        disp: instruction.disp,
        count: instruction.operand_count,
        slots,
        length_bits: evex.map_or(0, |evex| evex.vex().l() as u8 + 2 * evex.lp() as u8),
        tail: match instruction.operands[0] {
            OperandSpec::RegRRR_maskmerge_sae => 2,
            OperandSpec::RegRRR_maskmerge_sae_noround | OperandSpec::RegMMM_maskmerge_sae_noround => 1,
            _ => 0,
        },
    })
}

/// Whether its registers may have masks: 000 on the crate then does not see that they are vector registers.
pub fn has_evex(instruction: &Instruction) -> bool {
    instruction.prefixes.evex().is_some()
}

pub fn length(instruction: &Instruction) -> u32 {
    use yaxpeax_arch::AddressBase;
    0u32.wrapping_offset(instruction.len()).to_linear() as u32
}

/// Kind, segment, first and second register, scale, mask.
fn slot(instruction: &Instruction, place: u8) -> Option<[u8; 6]> {
    let [in_r, in_m, third, in_vex] = instruction.regs;
    let scale = instruction.scale;
    // k0 is no mask, and zeroing goes with one
    let masked = instruction.prefixes.evex().map_or(0, |evex| evex.mask_reg());
    let plain = |kind: u8, reg: RegSpec| if masked == 0 { Some((kind, register(reg)?, 0, 0)) } else { None };
    let esi = RegSpec::esi();
    let edi = RegSpec::edi();
    let (kind, first, second, scale) = match instruction.operands[place as usize] {
        OperandSpec::RegRRR => (1, register(in_r)?, 0, 0),
        OperandSpec::RegMMM => (2, register(in_m)?, 0, 0),
        // the third register of an instruction has no place of its own in a record, and prints alike in either
        OperandSpec::RegVex => (1, register(in_vex)?, 0, 0),
        OperandSpec::RegRRR_maskmerge
        | OperandSpec::RegRRR_maskmerge_sae
        | OperandSpec::RegRRR_maskmerge_sae_noround => plain(1, in_r)?,
        OperandSpec::RegMMM_maskmerge | OperandSpec::RegMMM_maskmerge_sae_noround => plain(2, in_m)?,
        OperandSpec::RegVex_maskmerge => plain(1, in_vex)?,
        OperandSpec::ImmI8 => (3, 0, 0, 0),
        OperandSpec::ImmI16 => (4, 0, 0, 0),
        OperandSpec::ImmI32 => (5, 0, 0, 0),
        OperandSpec::ImmU8 => (6, 0, 0, 0),
        OperandSpec::ImmU16 => (7, 0, 0, 0),
        OperandSpec::DispU16 => (9, 0, 0, 0),
        OperandSpec::DispU32 => (10, 0, 0, 0),
        OperandSpec::Deref => (11, register(in_m)?, 0, 0),
        OperandSpec::Deref_si => (11, register(RegSpec::si())?, 0, 0),
        OperandSpec::Deref_di => (11, register(RegSpec::di())?, 0, 0),
        OperandSpec::Deref_esi => (11, register(esi)?, 0, 0),
        OperandSpec::Deref_edi => (11, register(edi)?, 0, 0),
        OperandSpec::Disp => (12, register(in_m)?, 0, 0),
        OperandSpec::MemIndexScale => (13, register(third)?, 0, scale),
        OperandSpec::MemIndexScaleDisp => (14, register(third)?, 0, scale),
        OperandSpec::MemBaseIndexScale => (15, register(in_m)?, register(third)?, scale),
        OperandSpec::MemBaseIndexScaleDisp => (16, register(in_m)?, register(third)?, scale),
        OperandSpec::Deref_mask => (17, register(in_m)?, 0, 0),
        OperandSpec::Disp_mask => (18, register(in_m)?, 0, 0),
        OperandSpec::MemIndexScale_mask => (19, register(third)?, 0, scale),
        OperandSpec::MemIndexScaleDisp_mask => (20, register(third)?, 0, scale),
        OperandSpec::MemBaseIndexScale_mask => (21, register(in_m)?, register(third)?, scale),
        OperandSpec::MemBaseIndexScaleDisp_mask => (22, register(in_m)?, register(third)?, scale),
        _ => return None,
    };
    let segment = match instruction.segment_override_for_op(place) {
        _ if kind < 9 => 0,
        None => 0,
        Some(Segment::ES) => 1,
        Some(Segment::CS) => 2,
        Some(Segment::SS) => 3,
        Some(Segment::DS) => 4,
        Some(Segment::FS) => 5,
        Some(Segment::GS) => 6,
    };
    let mask = if kind > 16 { register(RegSpec::mask(masked))? } else { 0 };
    Some([kind, segment, first, second, scale, mask])
}

fn register(register: RegSpec) -> Option<u8> {
    let bank = match register.bank {
        RegisterBank::D => 0,
        RegisterBank::W => 1,
        RegisterBank::B => 2,
        RegisterBank::S => 3,
        RegisterBank::ST => 4,
        RegisterBank::MM => 5,
        RegisterBank::X => 6,
        RegisterBank::Y => 7,
        RegisterBank::Z => 8,
        RegisterBank::K => 9,
        _ => return None,
    };
    (register.num < 8).then_some(8 * bank + register.num)
}
