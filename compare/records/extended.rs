//! Extended records: those of the vector opcodes, and others with a masked operand; sound ones, and damaged ones.

use crate::numbers::{mem_size, number};
use crate::sound;
use crate::Random;
use oracle::{Record, Slot};

/// The vector opcodes: the four VPSCATTERs, then those of the general path.
const FIRST: u16 = 154;
const VADDPD: u16 = 175;
const SCATTERS: std::ops::RangeInclusive<u16> = 154..=157;

const XMM: u8 = 6;
const ZMM: u8 = 8;
const MASKS: u8 = 9;

/// A record of any opcode that keeps the record rules. Half of them are of the vector opcodes; the others have a
/// masked operand.
pub fn record(random: &mut Random) -> Record {
    let vector = random.chance(1, 2);
    let opcode = match vector {
        // the one whose count goes by widths
        true if random.chance(1, 6) => VADDPD,
        true => FIRST + random.below(22) as u16,
        false => random.below(FIRST as usize) as u16,
    };
    let mut slots = match random.below(8) {
        0 | 1 => {
            let count = random.below(5);
            (0..count).map(|_| any(random)).collect()
        }
        _ if SCATTERS.contains(&opcode) => scattered(random),
        _ if vector => suited(random),
        _ => sound::suited(random, opcode).into_iter().map(|slot| varied(random, slot)).collect(),
    };
    if !vector && !slots.iter().any(Slot::is_masked) {
        add_masked(random, &mut slots);
    }
    // a wide register before memory of a small size: the count may be above 16, and the line may not show it
    let wide = random.chance(1, 12);
    if wide {
        slots.clear();
        slots.push(sound::banked(random, 7));
        slots[0].first += random.pick(&[0, 8]);
        add_masked(random, &mut slots);
    }
    let mut record = Record {
        opcode,
        flags: sound::flags(random) | if wide { 0x40 } else { random.pick(&[0, 0x40]) },
        length: 1 + random.below(15) as u8,
        mem_size: if wide { random.pick(&[1, 2, 3, 4]) } else { mem_size(random) },
        imm: number(random),
        disp: number(random) as i32,
        count: slots.len() as u8,
        length_bits: random.below(4) as u8,
        tail: random.below(3) as u8,
        ..Record::default()
    };
    record.slots[..slots.len()].copy_from_slice(&slots);
    record
}

fn any(random: &mut Random) -> Slot {
    match random.below(16) {
        0..=5 => register(random),
        6..=7 => sound::immediate(random),
        _ => memory(random),
    }
}

/// Of any bank, mostly one of the wide ones.
fn register(random: &mut Random) -> Slot {
    let bank = random.pick(&[0, 1, 2, 3, 4, 5, XMM, 7, ZMM, MASKS, XMM, 7, ZMM, ZMM, MASKS]);
    sound::banked(random, bank)
}

fn memory(random: &mut Random) -> Slot {
    let slot = sound::memory(random);
    masked(random, slot)
}

/// With a mask, as often as not, where the kind can have one.
fn masked(random: &mut Random, slot: Slot) -> Slot {
    if matches!(slot.kind, 11..=16) && random.chance(1, 2) {
        Slot { kind: slot.kind + 6, mask: 8 * MASKS + 1 + random.below(7) as u8, ..slot }
    } else {
        slot
    }
}

/// An operand of a plain record with a mask, or now and then another register.
fn varied(random: &mut Random, slot: Slot) -> Slot {
    if slot.is_register() && random.chance(1, 4) {
        Slot { kind: slot.kind, ..register(random) }
    } else {
        masked(random, slot)
    }
}

/// A masked operand more, or in the last one's place.
fn add_masked(random: &mut Random, slots: &mut Vec<Slot>) {
    let slot = loop {
        let slot = memory(random);
        if slot.is_masked() {
            break slot;
        }
    };
    if slots.len() == 4 {
        slots.pop();
    }
    slots.push(slot);
}

/// What the VPSCATTER arms take: memory, most with a vector register as index, a mask, and an operand.
fn scattered(random: &mut Random) -> Vec<Slot> {
    let mut to = sound::memory(random);
    if random.chance(3, 4) {
        let index = 8 * (XMM + random.below(3) as u8) + random.below(8) as u8;
        match to.kind {
            13 | 14 => to.first = index,
            15 | 16 => to.second = index,
            _ => {}
        }
    }
    let mask = sound::banked(random, MASKS);
    let from = if random.chance(1, 2) { register(random) } else { any(random) };
    let mut slots = vec![to, mask, from];
    if random.chance(1, 6) {
        slots.push(any(random));
    }
    slots
}

fn suited(random: &mut Random) -> Vec<Slot> {
    let mut slots = match random.below(8) {
        0..=2 => vec![register(random), memory(random)],
        3..=4 => vec![register(random), register(random), memory(random)],
        5 => vec![memory(random), register(random)],
        6 => vec![register(random), memory(random), sound::immediate(random)],
        _ => vec![any(random)],
    };
    while slots.len() < 4 && random.chance(1, 6) {
        slots.push(any(random));
    }
    slots
}

/// The record's body with one thing wrong, or now and then two.
pub fn damage(random: &mut Random, record: Record) -> Vec<u8> {
    let mut body = record.body();
    let ends = operand_ends(&record);
    once(random, &mut body, &ends);
    if random.chance(1, 4) {
        once(random, &mut body, &ends);
    }
    body
}

/// Where each operand begins, and where the last ends.
fn operand_ends(record: &Record) -> Vec<usize> {
    let mut ends = vec![14];
    for slot in &record.slots[..record.count as usize] {
        ends.push(ends[ends.len() - 1] + if slot.is_masked() { 6 } else { 5 });
    }
    ends
}

fn once(random: &mut Random, body: &mut Vec<u8>, ends: &[usize]) {
    let last = ends[ends.len() - 1];
    // the first change may have cut the body
    let whole = body.len() >= last + 2;
    let slots = if whole { ends.len() - 1 } else { 0 };
    let slot = |random: &mut Random| ends[random.below(slots)];
    match random.below(24) {
        0 if body.len() >= 2 => {
            let opcode = random.pick(&[176u16, 177, 200, 255, 256, 154 + 256, 0x8000, 0xffff, 0, 23, 153, 154, 175]);
            body[..2].copy_from_slice(&opcode.to_be_bytes());
        }
        1 if body.len() >= 3 => body[2] |= random.pick(&[0x80, 0xc0]),
        2 if body.len() >= 4 => body[3] = random.pick(&[0, 16, 128, 255]),
        3 if whole => {
            // a count above 4 with as many operands as it says, of five bytes or of six, and the two bytes after
            // them; or the last operand alone is masked, in a record that is extended for it
            let count = random.pick(&[5, 5, 6, 7, 16, 100, 254, 255]);
            let alone = random.chance(1, 2);
            body.truncate(if alone { 14 } else { last });
            if alone {
                body[1] = random.below(FIRST as usize) as u8;
            }
            body[13] = count;
            for place in if alone { 0 } else { slots }..count as usize {
                if if alone { place + 1 == count as usize } else { random.chance(1, 2) } {
                    body.extend([17, 0, 0, 0, 0, 73]);
                } else {
                    body.extend([3, 0, 0, 0, 0]);
                }
            }
            body.extend(random.pick(&[&[0, 0][..], &[3, 2], &[4, 0], &[0], &[0, 0, 0], &[]]));
        }
        4 if body.len() >= 14 => body[13] = body[13].wrapping_add(random.pick(&[1, 255, 2])),
        5 if slots > 0 => {
            let at = slot(random);
            body[at] = random.pick(&[0, 23, 24, 32, 128, 255]);
        }
        // another kind over the same bytes: they may be one too many or one too few
        6 if slots > 0 => {
            let at = slot(random);
            body[at] = 1 + random.below(22) as u8;
        }
        7 if slots > 0 => {
            let at = slot(random);
            body[at + 1] = random.pick(&[7, 1, 6, 255]);
        }
        8 | 9 if slots > 0 => {
            let at = slot(random) + 2 + random.below(2);
            body[at] = random.pick(&[30, 31, 80, 81, 128, 255, 16, 24, 32, 40, 48, 56, 63, 64, 71, 72, 79, 15]);
        }
        10 if slots > 0 => {
            let at = slot(random);
            body[at + 4] = random.pick(&[0, 1, 3, 16, 255]);
        }
        // the mask: k0, and bytes on either side of its eight
        11..=13 if whole => {
            let six: Vec<usize> = ends.windows(2).filter(|two| two[1] - two[0] == 6).map(|two| two[1] - 1).collect();
            if !six.is_empty() {
                body[random.pick(&six)] = random.pick(&[72, 72, 0, 1, 64, 71, 80, 255]);
            }
        }
        14 if whole => body[last] = random.pick(&[4, 5, 8, 64, 128, 255]),
        15 if whole => body[last + 1] = random.pick(&[3, 4, 128, 255]),
        // the two bytes: gone, one of them gone, or twice
        16 if whole => body.truncate(last + random.below(2)),
        17 => body.extend([0, 0]),
        // fields that are right here alone, in a record that is not extended
        18 | 19 => {
            *body = sound::record(random).body();
            match random.below(3) {
                0 => body[2] |= 0x40,
                1 if body.len() >= 19 => body[16] = random.pick(&[64, 71, 72, 79]),
                _ => body.extend([random.below(4) as u8, random.below(3) as u8]),
            }
        }
        // a mask of its own on operand 0, whose index a vector register may be only without one
        20 if slots > 0 && matches!(body[14], 13..=16) => {
            body[14] += 6;
            body.insert(19, 8 * MASKS + 1);
        }
        21 => {
            let kept = random.below(body.len() + 1);
            body.truncate(kept);
        }
        22 => {
            let added = 1 + random.below(5);
            body.extend((0..added).map(|_| random.byte()));
        }
        _ if !body.is_empty() => {
            let at = random.below(body.len());
            body[at] ^= 1 << random.below(8);
        }
        _ => {}
    }
}
