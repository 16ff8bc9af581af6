//! What each opcode's line shows. Opcodes go by document 01's numbers.

use crate::line::Line;
use crate::record::{Operand, Record};
use crate::tables::{label, NAMES, ROUNDINGS};
use crate::TARGET;

#[derive(Clone, Copy, PartialEq)]
pub(crate) enum Arm {
    General,
    /// the general path with a fixed word for size 8
    Qword,
    Mmword,
    /// the general path with fword: on operand 0, on the others
    Far,
    Lds,
    Movs,
    Branch,
    Xbegin,
    Hreset,
    Lsl,
    Plain,
    Table,
    Lss,
    Nop,
    /// name, then fixed registers: three, two, one or none
    Three,
    Two,
    One,
    Bare,
    Invlpgb,
    Scas,
    Lods,
    Incssp,
    Wrss,
    Blend,
    Lea,
    Pushf,
    Aam,
    Fcom,
    Fadd,
    Fbld,
    Fbstp,
    /// VPSCATTER, by the label of its memory
    ScatterDword,
    ScatterQword,
}

use Arm::*;

/// The branches that have no short form: straight lines put no word on them.
const CALL: u8 = 1;
const XBEGIN: u8 = 22;

/// The flag of `{1toN}`.
const BROADCAST: u8 = 64;

#[inline]
fn arm(opcode: u8) -> Arm {
    match opcode {
        0..=21 => Branch,
        XBEGIN => Xbegin,
        // MOVQ to CVTSI2SD, PEXTRQ PINSRQ
        42..=49 | 52 | 53 => Qword,
        // CVTSD2SI CVTTSD2SI
        50 | 51 => Mmword,
        54..=57 => Lds,
        58 | 59 => Far,
        60 => Movs,
        64 => Hreset,
        65 => Lsl,
        66..=74 => Plain,
        75..=78 => Table,
        79 => Lss,
        80 => Nop,
        // MONITOR MONITORX MWAITX, PVALIDATE RMPADJUST RMPUPDATE
        81..=83 | 91..=93 => Three,
        84 => Two,
        85 => Invlpgb,
        87 | 88 => Scas,
        89 => Lods,
        90 => One,
        94 => Incssp,
        95 | 96 => Wrss,
        97..=100 => Blend,
        101 => Lea,
        102 => Pushf,
        103 | 104 => Aam,
        // RDPRU, FENI8087_NOP FDISI8087_NOP FSETPM287_NOP
        86 | 105..=107 => Bare,
        108..=111 => Fcom,
        112..=141 => Fadd,
        142..=147 => Fbld,
        148..=153 => Fbstp,
        154 | 155 => ScatterDword,
        156 | 157 => ScatterQword,
        _ => General,
    }
}

/// The arm that prints the record, special cases settled, or answer 4, 5 or 7.
#[inline]
pub(crate) fn decide<const EXTENDED: bool>(record: &Record) -> Result<Arm, u64> {
    let [a, b, c, _] = &record.operands;
    let size = record.mem_size;
    let named = !label(size).is_empty();
    let arm = arm(record.opcode);
    let (shape, sized) = match arm {
        Branch if a.kind == 3 || a.kind == 5 => return Ok(Branch),
        Xbegin if a.kind == 5 => return Ok(Branch),
        Nop if record.count > 1 => return Ok(Bare),
        Aam if record.imm == 10 => return Ok(Bare),
        Three | Two | One | Bare | Pushf => return Ok(arm),
        Lsl if a.is_register() && b.is_register() => {
            return if a.first / 8 == 3 && b.first % 8 >= 6 { Err(4) } else { Ok(Lsl) };
        }
        Hreset | Plain => (a.kind != 0, true),
        Table => (a.is_memory(), true),
        Lss => (b.is_memory(), size == 4 || size == 6),
        Invlpgb => (c.kind != 0, true),
        Scas => (a.is_memory(), named),
        Lods => (b.is_memory(), named),
        Blend | Fcom => (b.kind != 0, named || !b.is_memory()),
        Lea => (b.kind != 0, true),
        Fadd => (
            b.is_memory() || b.kind == 1 || (a.kind == 1 && b.kind != 0),
            named || !b.is_memory(),
        ),
        Fbld => (b.is_memory() || b.kind == 2, named || size == 10 || !b.is_memory()),
        Fbstp => (a.kind != 0, named || size == 10 || !a.is_memory()),
        // bank 9 is k0 to k7
        ScatterDword | ScatterQword => {
            (a.is_memory() && a.mask == 0 && b.is_register() && b.bank() == 9 && c.kind != 0, true)
        }
        _ => {
            let shape = match arm {
                Lsl => a.is_register(),
                Incssp => a.is_register() && a.first < 8,
                Wrss => b.is_register() && b.first < 8,
                _ => true,
            };
            let any = |operands: &[Operand]| operands.iter().any(Operand::is_memory);
            let sized = named
                || size == 63
                || size == 48
                || match arm {
                    Far if size == 6 => !any(&record.operands[1..]),
                    Lds if size == 6 => !a.is_memory(),
                    _ => !any(&record.operands),
                };
            let general = match arm {
                Branch | Xbegin | Nop | Aam | Lsl | Incssp | Wrss => General,
                arm => arm,
            };
            return if !shape { Err(4) } else if !sized { Err(5) } else { counted::<EXTENDED>(record).map(|()| general) };
        }
    };
    if !shape {
        Err(4)
    } else if !sized {
        Err(5)
    } else {
        Ok(arm)
    }
}

/// Answer 7: the general path would show a count above 16.
#[inline]
fn counted<const EXTENDED: bool>(record: &Record) -> Result<(), u64> {
    let over = |place: usize| record.operands[place].is_memory() && broadcast(record, place) > 16;
    if EXTENDED && record.flags & BROADCAST != 0 && (1..4).any(over) {
        Err(7)
    } else {
        Ok(())
    }
}

/// The N of `{1toN}`: for the opcodes of 000's rule by the length bits, else by what the operand before holds.
fn broadcast(record: &Record, place: usize) -> u8 {
    let by_length = |l, lp, neither| match record.length_bits {
        1 | 3 => l,
        2 => lp,
        _ => neither,
    };
    match record.opcode {
        // VFPCLASSPS, VCVTNEPS2BF16
        166 | 168 => by_length(8, 16, 4),
        158..=174 => by_length(4, 8, 2),
        _ => record.operands[place - 1].width().checked_div(record.mem_size).unwrap_or(0),
    }
}

#[inline]
fn head<const EXTENDED: bool>(record: &Record, line: &mut Line<EXTENDED>) {
    let flags = record.flags;
    if flags & 0x1f != 0 {
        if flags & 1 != 0 {
            line.word("xacquire ");
        }
        if flags & 2 != 0 {
            line.word("xrelease ");
        }
        if flags & 4 != 0 {
            line.word("lock ");
        }
        // MOVS CMPS INS OUTS, SCAS STOS LODS
        if matches!(record.opcode, 60..=63 | 87..=89) {
            if flags & 8 != 0 {
                line.word("rep ");
            } else if flags & 16 != 0 {
                line.word("repne ");
            }
        }
    }
    line.word(NAMES[record.opcode as usize]);
}

/// The line of a record that `decide` gave this arm.
#[inline]
pub(crate) fn print<const EXTENDED: bool>(record: &Record, arm: Arm, mode: u32, line: &mut Line<EXTENDED>) {
    let [a, b, c, _] = &record.operands;
    let size = record.mem_size;
    head(record, line);
    match arm {
        Bare => {}
        Pushf => {
            if record.flags & 32 == 0 {
                line.word("d");
            }
        }
        One => line.word(" eax"),
        Two => line.word(" eax, ecx"),
        Three => line.word(" eax, ecx, edx"),
        Branch => {
            line.word(" ");
            let length = record.length as i32;
            let worded = mode > 0 && !matches!(record.opcode, CALL | XBEGIN);
            let sum = if a.kind == 3 {
                if worded {
                    line.word("short ");
                }
                let whole = record.imm as i8 as i32 + length;
                if mode == 0 { whole as i8 as i32 } else { whole }
            } else {
                let sum = (record.imm as i32).wrapping_add(length);
                if worded || mode == 0 && (128..256).contains(&sum) {
                    line.word("near ptr ");
                }
                sum
            };
            if mode == TARGET {
                line.target(record.start.wrapping_add_signed(sum));
            } else {
                line.branch(sum);
            }
        }
        Hreset => {
            line.word(" ");
            line.operand(record, a);
            line.word(", eax");
        }
        Lsl => {
            line.word(" ");
            line.operand(record, a);
            line.word(", ");
            line.register(a.first / 8 * 8 + b.first % 8);
        }
        Plain => {
            line.word(" ");
            line.operand(record, a);
        }
        Table => {
            line.word(" fword ptr ");
            line.operand(record, a);
        }
        Lss => {
            line.word(" ");
            line.operand(record, a);
            line.word(if size == 4 { ", dword ptr " } else { ", fword ptr " });
            line.operand(record, b);
        }
        Invlpgb => {
            line.word(" ");
            line.operand(record, a);
            line.word(", ");
            line.operand(record, c);
        }
        Scas => {
            line.word(" ");
            line.labelled(record, a, label(size));
        }
        Lods => {
            line.word(" ");
            line.word(label(size));
            line.operand(record, b);
        }
        Blend => {
            line.word(" ");
            line.operand(record, a);
            line.word(", ");
            line.labelled(record, b, label(size));
            line.word(", xmm0");
        }
        Lea => {
            line.word(" ");
            line.operand(record, a);
            line.word(", ");
            line.operand(record, b);
        }
        Fcom => {
            line.word(" ");
            line.labelled(record, b, label(size));
        }
        Fadd => {
            line.word(" ");
            if b.is_memory() {
                line.labelled(record, b, label(size));
            } else if a.kind == 1 {
                line.stack_top(record, a);
                line.word(", ");
                line.operand(record, b);
            } else {
                line.operand(record, a);
                line.word(", ");
                line.stack_top(record, b);
            }
        }
        Fbld => {
            line.word(" ");
            if b.is_memory() {
                line.labelled(record, b, float_label(size));
            } else {
                line.stack_top(record, b);
            }
        }
        Fbstp => {
            line.word(" ");
            line.labelled(record, a, float_label(size));
        }
        ScatterDword | ScatterQword => {
            line.word(if arm == ScatterDword { " dword ptr " } else { " qword ptr " });
            line.operand(record, a);
            line.mask(b.first);
            line.word(", ");
            line.operand(record, c);
        }
        _ => general(record, arm, line),
    }
}

fn float_label(size: u8) -> &'static str {
    if size == 10 {
        "tbyte ptr "
    } else {
        label(size)
    }
}

#[inline]
fn general<const EXTENDED: bool>(record: &Record, arm: Arm, line: &mut Line<EXTENDED>) {
    let size = record.mem_size;
    // banks 5 to 7 are mm, xmm and ymm
    let vector = |operand: &Operand| operand.is_register() && (40..64).contains(&operand.first);
    let plain = if size == 8
        && arm != Qword
        && (arm == Mmword || record.operands.iter().any(vector))
    {
        "mmword ptr "
    } else {
        label(size)
    };
    for (place, operand) in record.operands[..record.count as usize].iter().enumerate() {
        line.word(if place == 0 { " " } else { ", " });
        if operand.is_memory() {
            let far = size == 6 && arm == if place == 0 { Far } else { Lds };
            line.word(if far { "fword ptr " } else { plain });
            if !(arm == Movs && place > 0 && operand.segment == 4) {
                line.segment(operand);
            }
        }
        line.operand(record, operand);
        if EXTENDED && record.flags & BROADCAST != 0 && place > 0 && operand.is_memory() {
            line.broadcast(broadcast(record, place));
        }
    }
    if EXTENDED && record.tail != 0 && record.count > 0 {
        line.word(if record.tail == 1 { " {sae}" } else { ROUNDINGS[record.length_bits as usize & 3] });
    }
}
