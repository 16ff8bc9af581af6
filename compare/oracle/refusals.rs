//! Answers 4, 5 and 7, each written from document 01's own list and from W-204. 000 is not asked here: it
//! panics, or prints something odd, or prints well, and the comparison wants to know which.

use crate::opcodes::Opcode::{self, *};
use crate::record::{Record, Slot};

/// The opcodes that share a way to print, as far as the refusals tell them apart.
enum Arm {
    /// prints no operand, whatever the record holds
    Bare,
    /// prints a relative branch and drops the rest
    Branch,
    General,
    Hreset,
    Lsl,
    /// operand 0 without label: the PREFETCH group
    Plain,
    /// SGDT SIDT LGDT LIDT
    Table,
    Lss,
    Invlpgb,
    /// SCAS STOS
    Scas,
    Lods,
    Incssp,
    /// WRSS WRUSS
    Wrss,
    /// PBLENDVB and its like
    Blend,
    Lea,
    Fcom,
    Fadd,
    Fbld,
    Fbstp,
    Scatter,
}

fn arm(opcode: Opcode, record: &Record) -> Arm {
    let first = record.slot(0).map_or(0, |slot| slot.kind);
    match opcode {
        JMP | CALL | JECXZ | LOOP | LOOPZ | LOOPNZ | JO | JNO | JB | JNB | JZ | JNZ | JNA | JA | JS
        | JNS | JP | JNP | JL | JGE | JLE | JG
            if first == 3 || first == 5 =>
        {
            Arm::Branch
        }
        XBEGIN if first == 5 => Arm::Branch,
        HRESET => Arm::Hreset,
        LSL => Arm::Lsl,
        PREFETCHNTA | PREFETCH0 | PREFETCH1 | PREFETCH2 | PREFETCHW | INVLPG | CLFLUSH | CLFLUSHOPT
        | CLWB => Arm::Plain,
        SGDT | SIDT | LGDT | LIDT => Arm::Table,
        LSS => Arm::Lss,
        NOP if record.count > 1 => Arm::Bare,
        MONITOR | MONITORX | MWAITX | MWAIT | RDPRU | PSMASH | PVALIDATE | RMPADJUST | RMPUPDATE
        | PUSHF | FENI8087_NOP | FDISI8087_NOP | FSETPM287_NOP => Arm::Bare,
        AAM | AAD if record.imm == 10 => Arm::Bare,
        INVLPGB => Arm::Invlpgb,
        SCAS | STOS => Arm::Scas,
        LODS => Arm::Lods,
        INCSSP => Arm::Incssp,
        WRSS | WRUSS => Arm::Wrss,
        PBLENDVB | BLENDVPS | BLENDVPD | SHA256RNDS2 => Arm::Blend,
        LEA => Arm::Lea,
        FCOM | FCOMP | FICOM | FICOMP => Arm::Fcom,
        FADD | FMUL | FSUB | FSUBR | FDIV | FDIVR | FADDP | FMULP | FSUBRP | FSUBP | FDIVP | FDIVRP
        | FIADD | FIMUL | FISUB | FISUBR | FIDIV | FIDIVR | FCMOVB | FCMOVE | FCMOVBE | FCMOVU
        | FCMOVNB | FCMOVNE | FCMOVNBE | FCMOVNU | FUCOMI | FCOMI | FUCOMIP | FCOMIP => Arm::Fadd,
        FBLD | FLD | FILD | FXCH | FUCOM | FUCOMP => Arm::Fbld,
        FBSTP | FST | FSTP | FIST | FISTP | FISTTP => Arm::Fbstp,
        VPSCATTERDD | VPSCATTERQD | VPSCATTERDQ | VPSCATTERQQ => Arm::Scatter,
        _ => Arm::General,
    }
}

/// Answer 4: "shape is refused exactly where".
pub(crate) fn shape_refused(record: &Record) -> bool {
    let memory = |place| record.slot(place).is_some_and(Slot::is_memory);
    let kind = |place, kind| record.slot(place).is_some_and(|slot| slot.kind == kind);
    let register_of =
        |bank: u8, place| record.slot(place).is_some_and(|slot| slot.is_register() && slot.bank() == bank);
    let unmasked = |place| record.slot(place).is_some_and(|slot| slot.is_memory() && !slot.is_masked());
    match arm(Opcode::numbered(record.opcode), record) {
        Arm::Bare | Arm::Branch | Arm::General => false,
        Arm::Hreset | Arm::Plain | Arm::Fbstp => record.count < 1,
        Arm::Lea | Arm::Blend | Arm::Fcom => record.count < 2,
        Arm::Invlpgb => record.count < 3,
        Arm::Lsl => match (record.slot(0), record.slot(1)) {
            (Some(to), from) if to.is_register() => match from {
                // the source prints with the destination's bank, and bank 3 has six registers
                Some(from) if from.is_register() => to.bank() == 3 && from.first % 8 >= 6,
                _ => false,
            },
            _ => true,
        },
        Arm::Table | Arm::Scas => !memory(0),
        Arm::Lss | Arm::Lods => !memory(1),
        Arm::Incssp => !register_of(0, 0),
        Arm::Wrss => !register_of(0, 1),
        Arm::Fadd => record.count < 2 || !(memory(1) || kind(0, 1) || kind(1, 1)),
        Arm::Fbld => !(memory(1) || kind(1, 2)),
        // bank 9 is k0 to k7
        Arm::Scatter => !(unmasked(0) && register_of(9, 1) && record.count > 2),
    }
}

/// The sizes that have a label everywhere.
fn labelled(size: u8) -> bool {
    matches!(size, 1 | 2 | 4 | 8 | 16 | 32 | 64)
}

/// Answer 5: "a label is called for and there is none; LSS not 4 or 6". Asked only of records that
/// answer 4 lets through.
pub(crate) fn size_refused(record: &Record) -> bool {
    let size = record.mem_size;
    let opcode = Opcode::numbered(record.opcode);
    let memory = |place| record.slot(place).is_some_and(Slot::is_memory);
    match arm(opcode, record) {
        Arm::Bare | Arm::Branch | Arm::Hreset | Arm::Plain | Arm::Table | Arm::Invlpgb | Arm::Lea
        | Arm::Scatter => false,
        Arm::Lss => size != 4 && size != 6,
        Arm::Scas | Arm::Lods => !labelled(size),
        Arm::Blend | Arm::Fcom | Arm::Fadd => memory(1) && !labelled(size),
        Arm::Fbld => memory(1) && !labelled(size) && size != 10,
        Arm::Fbstp => memory(0) && !labelled(size) && size != 10,
        Arm::Lsl if record.slot(1).is_some_and(Slot::is_register) => false,
        Arm::Lsl | Arm::Incssp | Arm::Wrss | Arm::General => (0..4).any(|place| {
            let far = match place {
                0 => matches!(opcode, JMPF | CALLF),
                _ => matches!(opcode, LDS | LES | LFS | LGS),
            };
            // 63 and 48 stand for state areas, which go without a label here
            memory(place) && !(labelled(size) || size == 63 || size == 48 || (far && size == 6))
        }),
    }
}

/// The opcodes whose `{1toN}` goes by the length bits; none of theirs is above 16.
fn counts_by_length(opcode: Opcode) -> bool {
    matches!(
        opcode,
        VCVTPD2PS | VCVTTPD2UDQ | VCVTPD2UDQ | VCVTUDQ2PD | VCVTPS2PD | VCVTQQ2PS | VCVTDQ2PD | VCVTTPD2DQ
            | VFPCLASSPS | VFPCLASSPD | VCVTNEPS2BF16 | VCVTUQQ2PS | VCVTPD2DQ | VCVTTPS2UQQ | VCVTPS2UQQ
            | VCVTTPS2QQ | VCVTPS2QQ
    )
}

/// Answer 7: "a printed `{1toN}` with N above 16". Asked only of records that answers 4 and 5 let through. N is the
/// width of the operand before, divided by mem_size and rounded down, or 0 where there is no width or no size.
pub(crate) fn broadcast_refused(record: &Record) -> bool {
    let opcode = Opcode::numbered(record.opcode);
    if !record.broadcasts() || counts_by_length(opcode) {
        return false;
    }
    let general_path = match arm(opcode, record) {
        Arm::General | Arm::Incssp | Arm::Wrss => true,
        Arm::Lsl => !record.slot(1).is_some_and(Slot::is_register),
        _ => false,
    };
    let count = |place: usize| {
        let width = record.slot(place - 1).and_then(Slot::width).unwrap_or(0);
        width.checked_div(record.mem_size).unwrap_or(0)
    };
    general_path && (1..4).any(|place| record.slot(place).is_some_and(Slot::is_memory) && count(place) > 16)
}
