//! A listing of the kind that a drive's firmware gives: moves and arithmetic over the stack frame,
//! calls and short jumps, now and then a string instruction, a flag, a float. Each record is an
//! instruction that a processor has, so that printers of machine code can be asked for the same lines.

use oracle::{with_start, Record, Slot};
use records::Random;

/// A register in the R place (kind 1) or the M place (kind 2), as wide as `size` says.
fn register(random: &mut Random, kind: u8, size: u8) -> Slot {
    let bank = match size {
        1 => 2,
        2 => 1,
        _ => 0,
    };
    Slot { kind, first: 8 * bank + random.below(8) as u8, ..Slot::default() }
}

fn float(kind: u8, number: u8) -> Slot {
    Slot { kind, first: 8 * 4 + number, ..Slot::default() }
}

fn immediate(kind: u8) -> Slot {
    Slot { kind, ..Slot::default() }
}

/// Mostly `[r + disp]`, some with an index (which cannot be esp), few absolute.
fn memory(random: &mut Random) -> Slot {
    let kind = random.pick(&[11, 12, 12, 12, 12, 12, 12, 16, 16, 15, 14, 10]);
    let index = random.pick(&[0, 1, 2, 3, 5, 6, 7]);
    Slot {
        kind,
        segment: if random.chance(1, 50) { 5 } else { 0 },
        first: match kind {
            10 => 0,
            14 => index,
            _ => random.below(8) as u8,
        },
        second: if kind >= 15 { index } else { 0 },
        scale: if kind >= 13 { random.pick(&[1, 2, 4, 8]) } else { 0 },
        mask: 0,
    }
}

/// `[edi]` in es and `[esi]`, as the string instructions have them.
fn string(segment: u8, first: u8) -> Slot {
    Slot { kind: 11, segment, first, ..Slot::default() }
}

/// One record. Opcodes go by document 01's numbers.
fn record(random: &mut Random) -> Record {
    let small = |random: &mut Random| (random.below(512) as i32 - 128) * random.pick(&[1, 1, 1, 4]);
    let imm = if random.chance(1, 6) { random.bits() as u32 } else { small(random) as u32 };
    let disp = if random.chance(1, 12) { random.bits() as i32 } else { small(random) };
    let mut size = random.pick(&[4, 4, 4, 4, 4, 4, 1, 2]);
    let arithmetic = 24 + random.below(8) as u16;
    let (opcode, slots) = match random.below(100) {
        // mov and arithmetic, register and memory
        0..=29 => (23, vec![register(random, 1, size), memory(random)]),
        30..=39 => (23, vec![memory(random), register(random, 1, size)]),
        40..=49 => (arithmetic, vec![register(random, 2, 4), register(random, 1, 4)]),
        50..=57 => (arithmetic, vec![register(random, 2, 4), immediate(random.pick(&[3, 3, 3, 5]))]),
        58..=59 => (32, vec![register(random, 2, 1), immediate(6)]),
        // push, pop, inc, dec
        60..=69 => (33 + random.below(4) as u16, vec![register(random, 2, 4)]),
        // call, jmp, conditional jumps
        70..=76 => (1, vec![immediate(5)]),
        77..=80 => (0, vec![immediate(random.pick(&[3, 5]))]),
        81..=91 => (6 + random.below(16) as u16, vec![immediate(3)]),
        92..=94 => (101, vec![register(random, 1, 4), Slot { segment: 0, ..memory(random) }]),
        // rep movs, rep stos
        95 => (60, vec![string(1, 7), string(4, 6)]),
        96 => (88, vec![string(1, 7), Slot { first: register(random, 1, size).first & !7, kind: 1, ..Slot::default() }]),
        // fld, fstp, fadd
        97 => (143, vec![float(1, 0), memory(random)]),
        98 => (150, vec![memory(random)]),
        _ => (112, vec![float(1, 0), float(2, random.below(8) as u8)]),
    };
    if opcode == 143 || opcode == 150 {
        size = random.pick(&[4, 8]);
    }
    let length = match slots[0].kind {
        3 => 2,
        5 => 5,
        _ => 1 + random.below(7) as u8,
    };
    let flags = if opcode == 60 || opcode == 88 { 8 } else { 0 };
    let mut record = Record { opcode, flags, length, mem_size: size, imm, disp, count: slots.len() as u8, ..Record::default() };
    record.slots[..slots.len()].copy_from_slice(&slots);
    record
}

/// The records as a listing of a version. Those of version 2 stand one after the other in memory.
pub fn listing(version: u32, count: usize, seed: u64) -> Vec<u8> {
    let mut random = Random::new(seed);
    let mut listing = vec![version as u8];
    let mut start = 0x0040_1000;
    for _ in 0..count {
        let record = record(&mut random);
        let body = if version == 1 { record.body() } else { with_start(&record.body(), start) };
        start += record.length as u32;
        listing.extend((body.len() as u16).to_be_bytes());
        listing.extend(body);
    }
    listing
}
