//! `exhaust`: what can be tried whole is tried whole, through the same comparison as `run`.

use harness::{command, finish, Checker, Counts, Difference, Expected, Host};
use oracle::{listing_into, Record, Sink, Slot, MAX_LISTING, OPCODES, VERSIONS};
use records::Random;

fn main() {
    finish(exhaust(), false)
}

/// Of the start addresses.
const SEED: u64 = 205;

struct Tried {
    checker: Checker,
    /// for the start addresses of records that are not tried with certain ones
    random: Random,
    last: usize,
    records: usize,
    going: bool,
}

impl Tried {
    /// A body of each version.
    fn both(&mut self, bodies: [&[u8]; 2]) -> Result<(), Difference> {
        if self.going {
            self.going = self.checker.push_both(bodies)?;
            self.records += 1;
        }
        Ok(())
    }

    fn body(&mut self, body: &[u8]) -> Result<(), Difference> {
        let start = records::start(&mut self.random);
        self.both([body, &records::located_at(body, start)])
    }

    fn record(&mut self, record: &Record) -> Result<(), Difference> {
        self.body(&record.body())
    }

    /// With this start address in version 2, where the others have any.
    fn record_at(&mut self, start: u32, record: &Record) -> Result<(), Difference> {
        let body = record.body();
        self.both([&body, &records::located_at(&body, start)])
    }

    fn say(&mut self, what: &str) {
        println!("{:>9}  {what}", self.records - self.last);
        self.last = self.records;
    }
}

fn exhaust() -> Result<Counts, Difference> {
    let mut tried = Tried { checker: Checker::start(SEED), random: Random::new(SEED), last: 0, records: 0, going: true };
    branches(&mut tried)?;
    targets(&mut tried)?;
    slots(&mut tried)?;
    sizes(&mut tried)?;
    heads(&mut tried)?;
    masks(&mut tried)?;
    scatters(&mut tried)?;
    counts(&mut tried)?;
    ends(&mut tried)?;
    lengths(&mut tried)?;
    let counts = tried.checker.finish()?;
    edges_of_the_entry()?;
    Ok(counts)
}

fn slot(kind: u8) -> Slot {
    match kind {
        9 | 10 => Slot { kind, segment: 5, ..Slot::default() },
        11 | 12 => Slot { kind, segment: 5, first: 3, ..Slot::default() },
        13 | 14 => Slot { kind, segment: 5, first: 3, scale: 4, ..Slot::default() },
        15 | 16 => Slot { kind, segment: 5, first: 3, second: 6, scale: 4, mask: 0 },
        17..=22 => Slot { kind, mask: K1 + 2, ..slot(kind - 6) },
        _ => Slot { kind, ..Slot::default() },
    }
}

/// Register bytes.
const XMM0: u8 = 48;
const ZMM0: u8 = 64;
const K1: u8 = 73;

/// The flag of `{1toN}`.
const BROADCAST: u8 = 64;

/// The vector opcodes: the VPSCATTERs; those whose count goes by the length bits, and VADDPD.
const SCATTERS: std::ops::RangeInclusive<u16> = 154..=157;
const COUNTED: std::ops::Range<u16> = 158..OPCODES;
const VADDPD: u16 = 175;

/// One opcode of each arm, and those that the general path knows by name.
const ARMS: [u16; 37] = [
    0, 1, 22, 23, 42, 50, 54, 58, 60, 64, 65, 66, 75, 79, 80, 81, 84, 85, 86, 87, 89, 90, 94, 95, 97, 101, 102, 103, 105,
    108, 112, 142, 148, 154, 156, 168, VADDPD,
];

fn register(kind: u8, first: u8) -> Slot {
    Slot { kind, first, ..Slot::default() }
}

fn with(opcode: u16, slots: &[Slot]) -> Record {
    let mut record = Record {
        opcode,
        length: 3,
        mem_size: 4,
        imm: 0x12,
        disp: -0x34,
        count: slots.len() as u8,
        ..Record::default()
    };
    record.slots[..slots.len()].copy_from_slice(slots);
    record
}

/// Every 8-bit distance with every length, for the relative branches and XBEGIN; of the 32-bit ones
/// those around 0 and around the ends.
fn branches(tried: &mut Tried) -> Result<(), Difference> {
    for opcode in 0..=22 {
        for length in 1..=15 {
            for distance in 0..=255u32 {
                // the high bytes of imm are not the distance's
                for high in [0, 0xffff_ff00, 0x1234_5600] {
                    let imm = distance | high;
                    tried.record(&Record { length, imm, ..with(opcode, &[slot(3)]) })?;
                }
            }
            for middle in [0u32, 0x7f, 0xff, 0x7fff, 0x8000, 0xffff, 0x7fff_ffff, 0x8000_0000] {
                for near in 0..300u32 {
                    let imm = middle.wrapping_add(near).wrapping_sub(150);
                    tried.record(&Record { length, imm, ..with(opcode, &[slot(5)]) })?;
                }
            }
        }
        for kind in 1..=16 {
            for further in [0, 1, 5, 12] {
                let slots = [slot(kind), slot(further.max(1))];
                tried.record(&with(opcode, &slots[..1 + (further > 0) as usize]))?;
            }
        }
    }
    tried.say("branches: every 8-bit distance and length, 32-bit ones around their edges");
    Ok(())
}

/// Start addresses around the ends of 32 bits, around the middle, and around the first that is written with a 0 in
/// front; in steps that a length or a short distance crosses.
fn starts() -> Vec<u32> {
    let mut starts = Vec::new();
    for turn in [0, 0x8000_0000, 0xa000_0000] {
        for near in
            [-257, -144, -143, -129, -128, -127, -16, -15, -14, -3, -2, -1, 0, 1, 2, 14, 15, 16, 127, 128, 129, 255]
        {
            starts.push(u32::wrapping_add_signed(turn, near));
        }
    }
    starts.extend([0x0040_1000, 0x1234_5678, 0x9999_9999, 0xcafe_babe]);
    starts
}

/// Targets: every short distance with every length at each start address, as a distance of 8 bits and of 32; of the
/// 32-bit ones also those around the ends; every branch, and what is none.
fn targets(tried: &mut Tried) -> Result<(), Difference> {
    const BRANCHES: [(u16, u8); 7] = [(0, 3), (0, 5), (1, 3), (1, 5), (3, 3), (21, 5), (22, 5)];
    for start in starts() {
        for length in 1..=15 {
            for distance in -128..=127i32 {
                for (opcode, kind) in BRANCHES {
                    let imm = distance as u32;
                    tried.record_at(start, &Record { length, imm, ..with(opcode, &[slot(kind)]) })?;
                }
                // the high bytes of imm are not a short distance's
                let imm = distance as u8 as u32 | 0x1234_5600;
                tried.record_at(start, &Record { length, imm, ..with(0, &[slot(3)]) })?;
            }
            // the last distances have targets around the ends of 32 bits
            let home = 0u32.wrapping_sub(start).wrapping_sub(length as u32);
            for middle in [0x7fff_ffffu32, 0x8000_0000, 0xffff_ff00, 0x100, home] {
                for near in 0..34u32 {
                    let imm = middle.wrapping_add(near).wrapping_sub(17);
                    tried.record_at(start, &Record { length, imm, ..with(1, &[slot(5)]) })?;
                }
            }
        }
        for opcode in 0..=23 {
            for kind in 1..=16 {
                for further in [&[][..], &[slot(5)], &[register(1, 0), slot(10)]] {
                    let slots = [&[slot(kind)], further].concat();
                    tried.record_at(start, &with(opcode, &slots))?;
                }
            }
        }
    }
    tried.say("targets: every 8-bit distance and length, at start addresses around the ends of 32 bits");
    Ok(())
}

/// Every value of every byte of an operand, for every opcode, as operand 0 and as operand 1.
fn slots(tried: &mut Tried) -> Result<(), Difference> {
    for opcode in 0..OPCODES {
        for kind in 1..=16 {
            for byte in 0..5 {
                for value in 0..=255 {
                    let changed = changed(slot(kind), byte, value);
                    // bytes of a kind that refuses nearly all values are the same for every opcode
                    if opcode % 16 != 0 && (byte == 0 || (3..=8).contains(&kind)) && value > 8 {
                        continue;
                    }
                    tried.record(&with(opcode, &[changed]))?;
                    tried.record(&with(opcode, &[register(1, 0), changed]))?;
                }
            }
        }
        // st(0) against the others, in both places of both operands
        for (one, other) in [(1, 1), (1, 2), (2, 1), (2, 2)] {
            for first in 0..64 {
                for second in [0, 8, 27, 30, 32, 33, 40, 48, 56] {
                    tried.record(&with(opcode, &[register(one, first), register(other, second)]))?;
                    tried.record(&with(opcode, &[register(one, second), register(other, first)]))?;
                }
            }
        }
    }
    tried.say("operands: every register byte, scale, segment and kind");
    Ok(())
}

/// A value in one of an operand's bytes, the mask being the sixth.
fn changed(slot: Slot, byte: usize, value: u8) -> Slot {
    match byte {
        0 => Slot { kind: value, ..slot },
        1 => Slot { segment: value, ..slot },
        2 => Slot { first: value, ..slot },
        3 => Slot { second: value, ..slot },
        4 => Slot { scale: value, ..slot },
        _ => Slot { mask: value, ..slot },
    }
}

/// Every value of every byte of a masked operand, in each arm; every mask and every register byte with every opcode.
fn masks(tried: &mut Tried) -> Result<(), Difference> {
    for kind in 17..=22 {
        for opcode in ARMS {
            for byte in if kind == 17 { 0 } else { 1 }..6 {
                for value in 0..=255 {
                    let changed = changed(slot(kind), byte, value);
                    tried.record(&with(opcode, &[changed]))?;
                    tried.record(&with(opcode, &[register(1, 0), changed]))?;
                }
            }
        }
        for opcode in 0..OPCODES {
            for mask in 70..=82 {
                tried.record(&with(opcode, &[Slot { mask, ..slot(kind) }, register(1, 0)]))?;
                tried.record(&with(opcode, &[register(1, 0), Slot { mask, ..slot(kind) }]))?;
            }
        }
    }
    for opcode in 0..OPCODES {
        for value in 0..=255 {
            for kind in [1, 2] {
                tried.record(&with(opcode, &[register(kind, value), slot(17)]))?;
                tried.record(&with(opcode, &[register(1, ZMM0), register(kind, value), slot(22)]))?;
            }
        }
    }
    tried.say("masks: every byte of a masked operand, every register byte beside one");
    Ok(())
}

/// The VPSCATTERs: every kind and every byte of each of their three operands, and every count.
fn scatters(tried: &mut Tried) -> Result<(), Difference> {
    for opcode in SCATTERS {
        let (mask, from) = (register(1, K1), register(1, ZMM0 + 2));
        for kind in 1..=22 {
            // of an immediate all bytes but the kind are 0, as above
            for byte in 0..if (3..=8).contains(&kind) { 1 } else { 6 } {
                for value in 0..=255 {
                    let changed = changed(slot(kind), byte, value);
                    tried.record(&with(opcode, &[changed, mask, from]))?;
                    tried.record(&with(opcode, &[slot(15), changed, from]))?;
                    tried.record(&with(opcode, &[slot(16), mask, changed]))?;
                }
            }
            for other in 1..=22 {
                for mem_size in [0, 3, 8] {
                    for flags in [0, BROADCAST, 0x7f] {
                        let slots = [slot(kind), mask, slot(other), slot(kind)];
                        for count in 1..=4 {
                            tried.record(&Record { mem_size, flags, tail: 2, ..with(opcode, &slots[..count]) })?;
                        }
                    }
                }
            }
        }
        for index in 0..=255 {
            for scale in [1, 2, 4, 8] {
                for kind in 13..=22 {
                    let mut to = Slot { scale, ..slot(kind) };
                    match kind {
                        13 | 14 | 19 | 20 => to.first = index,
                        15 | 16 | 21 | 22 => to.second = index,
                        _ => continue,
                    }
                    tried.record(&with(opcode, &[to, register(2, 72 + index % 8), from]))?;
                    tried.record(&with(opcode, &[slot(11), mask, to]))?;
                }
            }
        }
    }
    tried.say("VPSCATTER: every kind and byte of each operand, every index");
    Ok(())
}

/// `{1toN}`: every width and every mem_size, for the rule of each opcode that has one, in each place.
fn counts(tried: &mut Tried) -> Result<(), Difference> {
    let mut before: Vec<Slot> = (0..10).map(|bank| register(1, 8 * bank)).collect();
    before.extend([3, 4, 5, 6, 7, 8, 9, 16, 22].map(slot));
    for mem_size in 0..=255 {
        let shown = |opcode, slots: &[Slot]| Record { mem_size, flags: BROADCAST, ..with(opcode, slots) };
        for &one in &before {
            for length_bits in 0..4 {
                for opcode in COUNTED {
                    tried.record(&Record { length_bits, ..shown(opcode, &[one, slot(12)]) })?;
                }
            }
            for opcode in ARMS {
                tried.record(&shown(opcode, &[one, slot(17)]))?;
            }
            for memory in [9, 16, 22] {
                tried.record(&shown(VADDPD, &[register(1, XMM0), one, slot(memory)]))?;
                tried.record(&shown(VADDPD, &[register(1, XMM0), register(1, 0), one, slot(memory)]))?;
                tried.record(&shown(VADDPD, &[slot(memory), one, slot(memory), slot(memory)]))?;
            }
        }
        for value in 0..80 {
            tried.record(&shown(VADDPD, &[register(2, value), slot(11)]))?;
            tried.record(&shown(23, &[register(1, value), slot(19)]))?;
        }
    }
    tried.say("{1toN}: every width and mem_size for each rule");
    Ok(())
}

/// Every flags byte, length bits and tail of extended records, and every mem_size over masked shapes.
fn ends(tried: &mut Tried) -> Result<(), Difference> {
    let zmm = register(1, ZMM0);
    let shapes: [&[Slot]; 5] =
        [&[slot(17)], &[register(1, 0), slot(22)], &[zmm, slot(11), slot(17)], &[slot(18), slot(21)], &[slot(6), slot(17)]];
    for opcode in 0..OPCODES {
        for slots in shapes {
            let record = with(opcode, slots);
            for mem_size in 0..=255 {
                tried.record(&Record { mem_size, flags: BROADCAST, tail: 1, ..record })?;
            }
        }
        for slots in &shapes[1..4] {
            let record = with(opcode, slots);
            for value in 0..=255 {
                tried.record(&Record { flags: value, ..record })?;
                tried.record(&Record { length_bits: value, tail: 2, ..record })?;
                tried.record(&Record { length_bits: 1, tail: value, ..record })?;
            }
        }
    }
    for record in [with(VADDPD, &[zmm]), with(23, &[zmm, slot(17)])] {
        for length_bits in 0..=255 {
            for tail in 0..=255 {
                tried.record(&Record { length_bits, tail, ..record })?;
            }
        }
    }
    tried.say("ends: every flags byte, length bits and tail of extended records");
    Ok(())
}

/// Every mem_size for every opcode, over operands of every shape that an arm asks about.
fn sizes(tried: &mut Tried) -> Result<(), Difference> {
    let (eax, ds, st, mm, xmm) =
        (register(1, 0), register(2, 27), register(1, 32), register(2, 40), register(1, 48));
    let memory = slot(16);
    let shapes: [&[Slot]; 22] = [
        &[],
        &[eax],
        &[memory],
        &[slot(6)],
        &[slot(9)],
        &[eax, memory],
        &[memory, eax],
        &[ds, memory],
        &[st, memory],
        &[memory, st],
        &[mm, memory],
        &[memory, xmm],
        &[eax, eax],
        &[eax, slot(3)],
        &[memory, slot(6)],
        &[memory, memory],
        &[slot(3), memory],
        &[slot(5), memory],
        &[register(2, 33), register(2, 32)],
        &[eax, eax, memory],
        &[memory, memory, xmm, memory],
        &[eax, memory, slot(10), register(2, 63)],
    ];
    for opcode in 0..OPCODES {
        for slots in shapes {
            for mem_size in 0..=255 {
                tried.record(&Record { mem_size, ..with(opcode, slots) })?;
            }
        }
    }
    tried.say("sizes: every mem_size for every opcode over 22 shapes");
    Ok(())
}

/// Every flags byte, length byte and some imm for every opcode; opcode numbers past the last.
fn heads(tried: &mut Tried) -> Result<(), Difference> {
    for opcode in 0..OPCODES {
        for slots in [&[][..], &[slot(11), register(1, 0)], &[register(1, 0), slot(11)]] {
            for flags in 0..=255 {
                tried.record(&Record { flags, ..with(opcode, slots) })?;
            }
            for length in 0..=255 {
                tried.record(&Record { length, ..with(opcode, slots) })?;
            }
        }
        for kind in 3..=8 {
            for imm in (0..=300).chain([0x7fff, 0x8000, 0xffff, 0x1_000a, 0x7fff_ffff, 0x8000_000a, u32::MAX]) {
                tried.record(&Record { imm, ..with(opcode, &[slot(kind)]) })?;
            }
        }
    }
    for opcode in OPCODES..=u16::MAX {
        tried.record(&with(opcode, &[]))?;
    }
    for opcode in (OPCODES..=u16::MAX).step_by(17) {
        tried.record(&with(opcode, &[slot(17)]))?;
    }
    tried.say("heads: every flags byte and length byte, imm up to 300, every opcode number");
    Ok(())
}

/// Every count with every body length around it, with no masked operand, with them all masked and with one, first or
/// last; and bodies of every length up to 1,600.
fn lengths(tried: &mut Tried) -> Result<(), Difference> {
    for count in 0..=255usize {
        // the opcode, and from which operand up to which they are masked
        let end = count.max(1) - 1;
        for (opcode, from, to) in
            [(23, 0, 0), (VADDPD, 0, 0), (OPCODES, 0, 0), (23, 0, 255), (23, 0, 1), (23, end, 255), (OPCODES, 0, 2)]
        {
            let mut body = with(23, &[]).body();
            body[1] = opcode as u8;
            body[13] = count as u8;
            for place in 0..count {
                if (from..to).contains(&place) {
                    body.extend([17, 0, 0, 0, 0, K1]);
                } else {
                    body.extend([3, 0, 0, 0, 0]);
                }
            }
            for less in 0..=7.min(body.len()) {
                tried.body(&body[..body.len() - less])?;
            }
            for _ in 0..7 {
                body.push(0);
                tried.body(&body)?;
            }
        }
    }
    for length in (0..1600).chain([4095, 4096, 65_534, 65_535]) {
        for body in [vec![0; length], vec![17; length]] {
            tried.body(&body)?;
            // as it is in both versions, so that in version 2 there are those too short for an address
            tried.both([&body, &body])?;
        }
    }
    tried.say("lengths: every count with body lengths around it, bodies up to 65,535 bytes");
    Ok(())
}

/// What only the listing entry has: its size limit, and its longest text.
fn edges_of_the_entry() -> Result<(), Difference> {
    let mut host = Host::start(&command("COMPARE_HOST"));
    // a body that no frame can hold is the record entry's alone
    for (version, length) in VERSIONS.into_iter().flat_map(|version| [(version, 65_536), (version, 100_000)]) {
        let body = vec![0; length];
        match host.check_record(version, &body) {
            Ok(None) => {}
            Ok(Some(difference)) => return Err(difference),
            Err(complaint) => return Err(Difference::complaint(&body[..14], &complaint)),
        }
    }
    // empty frames: two bytes each, twelve bytes of text each
    let mut listing = vec![0; MAX_LISTING + 1];
    for (version, mode, room) in [(1, 0, 0), (1, 1, 1000), (1, 2, 1000), (2, 2, 1000), (3, 2, 0)] {
        listing[0] = version;
        host.check_listing("one byte over the limit", &listing, mode, room, &Expected::refusal(2))?;
    }
    host.check_listing("one byte over the limit", &listing, 3, 1000, &Expected::refusal(1))?;
    listing.pop();
    for (version, mode, answer) in [(1, 0, 2), (1, 2, 1), (2, 2, 2)] {
        listing[0] = version;
        let mut text = format!("; refused {answer}\n").repeat((MAX_LISTING - 1) / 2).into_bytes();
        text.extend_from_slice(b"; cut\n");
        let length = text.len() as u64;
        let expected = Expected::of(0, &text, length);
        host.check_listing("exactly the limit, of empty frames", &listing, mode, length, &expected)?;
    }
    let listing = largest_listing();
    let mut text = Sink::default();
    listing_into(&listing, 0, &mut text).map_err(|(complaint, body)| Difference::complaint(&body, &complaint))?;
    let length = text.0.len() as u64;
    for room in [length, length - 1] {
        let expected = Expected::of(0, &text.0, room);
        host.check_listing("exactly the limit, of the longest text", &listing, 0, room, &expected)?;
    }
    println!("the listing entry at its limit: {} bytes in, {length} out", listing.len());
    Ok(())
}

/// The listing within the limit whose text is the longest. No frame has more text for each of its bytes than one of
/// 38 bytes with 242: the longest name and count, all three prefix words, four brackets with all that a bracket can
/// hold but a mask (four letters for a byte are too few), and a rounding word. After them comes what loses least by
/// not being one: empty frames, of two bytes and twelve, and a single byte, which is a cut.
fn largest_listing() -> Vec<u8> {
    const VCVTNEPS2BF16: u16 = 168;
    let bracket = Slot { kind: 16, segment: 5, first: 0, second: 1, scale: 8, mask: 0 };
    let record = Record {
        flags: BROADCAST | 7,
        mem_size: 16,
        disp: i32::MIN,
        length_bits: 2,
        tail: 2,
        ..with(VCVTNEPS2BF16, &[bracket; 4])
    };
    let body = record.body();
    let frame = [&(body.len() as u16).to_be_bytes()[..], &body].concat();
    let mut listing = vec![1];
    listing.extend(frame.repeat((MAX_LISTING - 1) / frame.len()));
    listing.resize(MAX_LISTING, 0);
    listing
}
