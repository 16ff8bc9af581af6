//! Records that keep the record rules and are not extended.

use crate::numbers::{mem_size, number};
use crate::Random;
use oracle::{Record, Slot};

/// A record of any opcode that is not a vector one. Three times out of four its operands suit the opcode, so that most lines
/// print; else they are any operands.
pub fn record(random: &mut Random) -> Record {
    let opcode = random.below(154) as u16;
    let mut record = Record {
        opcode,
        flags: flags(random),
        length: 1 + random.below(15) as u8,
        mem_size: mem_size(random),
        imm: number(random),
        disp: number(random) as i32,
        ..Record::default()
    };
    let slots = if random.chance(3, 4) {
        suited(random, opcode)
    } else {
        let count = random.below(5);
        (0..count).map(|_| any(random)).collect()
    };
    record.count = slots.len() as u8;
    record.slots[..slots.len()].copy_from_slice(&slots);
    record
}

/// Flags are rare in code, so half of all records have none.
pub(crate) fn flags(random: &mut Random) -> u8 {
    match random.below(4) {
        0 | 1 => 0,
        2 => 1 << random.below(6),
        _ => random.byte() & 0x3f,
    }
}

fn any(random: &mut Random) -> Slot {
    match random.below(16) {
        0..=4 => {
            let kind = random.pick(&[1, 2]);
            register(random, kind)
        }
        5..=7 => immediate(random),
        _ => memory(random),
    }
}

/// Operands as the opcode's arm wants them; opcodes by document 01's numbers.
pub(crate) fn suited(random: &mut Random, opcode: u16) -> Vec<Slot> {
    let spare = |random: &mut Random, mut slots: Vec<Slot>| {
        // now and then further operands, which the arm drops or the general path prints
        while slots.len() < 4 && random.chance(1, 6) {
            slots.push(any(random));
        }
        slots
    };
    let slots = match opcode {
        // relative branches and XBEGIN
        0..=22 => vec![Slot { kind: random.pick(&[3, 5]), ..Slot::default() }],
        // LSL
        65 => {
            let bank = random.pick(&[0, 0, 1, 1, 2, 3, 7]);
            vec![banked(random, bank), any(random)]
        }
        // SGDT SIDT LGDT LIDT, SCAS STOS
        75..=78 | 87 | 88 => vec![memory(random)],
        // LSS, LODS
        79 | 89 => vec![any(random), memory(random)],
        // INCSSP
        94 => vec![banked(random, 0)],
        // WRSS WRUSS
        95 | 96 => vec![any(random), banked(random, 0)],
        // the FADD arm
        112..=141 => match random.below(3) {
            0 => vec![stack(random, 1), memory(random)],
            1 => vec![stack(random, 1), stack(random, 2)],
            _ => vec![any(random), stack(random, 1)],
        },
        // the FBLD arm
        142..=147 => match random.below(2) {
            0 => vec![stack(random, 1), memory(random)],
            _ => vec![any(random), stack(random, 2)],
        },
        // the FBSTP arm
        148..=153 => vec![if random.chance(1, 2) { memory(random) } else { stack(random, 2) }],
        // INVLPGB
        85 => vec![any(random), any(random), any(random)],
        _ => match random.below(8) {
            0 => vec![any(random)],
            1 => vec![memory(random)],
            2..=3 => vec![register(random, 2), memory(random)],
            4 => vec![memory(random), register(random, 1)],
            5 => vec![register(random, 2), immediate(random)],
            _ => vec![any(random), any(random)],
        },
    };
    spare(random, slots)
}

fn register(random: &mut Random, kind: u8) -> Slot {
    loop {
        // banks 8 and 9 are right in extended records alone
        let first = random.below(64) as u8;
        if oracle::record::is_register(first) {
            return Slot { kind, first, ..Slot::default() };
        }
    }
}

pub(crate) fn banked(random: &mut Random, bank: u8) -> Slot {
    let number = random.below(if bank == 3 { 6 } else { 8 }) as u8;
    Slot { kind: random.pick(&[1, 2]), first: 8 * bank + number, ..Slot::default() }
}

/// Mostly an st register, half of them st(0), since that is what the arms look for.
fn stack(random: &mut Random, kind: u8) -> Slot {
    match random.below(8) {
        0..=3 => Slot { kind, first: 32, ..Slot::default() },
        4..=6 => Slot { kind, first: 32 + random.below(8) as u8, ..Slot::default() },
        _ => register(random, kind),
    }
}

pub(crate) fn immediate(random: &mut Random) -> Slot {
    Slot { kind: 3 + random.below(6) as u8, ..Slot::default() }
}

pub(crate) fn memory(random: &mut Random) -> Slot {
    let kind = 9 + random.below(8) as u8;
    let address = |random: &mut Random| random.below(16) as u8;
    Slot {
        kind,
        segment: if random.chance(1, 2) { 0 } else { random.below(7) as u8 },
        first: if kind >= 11 { address(random) } else { 0 },
        second: if kind >= 15 { address(random) } else { 0 },
        scale: if kind >= 13 { random.pick(&[1, 2, 4, 8]) } else { 0 },
        mask: 0,
    }
}
