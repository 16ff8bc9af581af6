//! `stored FOLDER`: writes FOLDER/list_crate, FOLDER/list_straight and FOLDER/list_target, each with the files
//! `stdin` and `stdout` that the gate runs a listing program on, and the same for where_crate, where_straight and
//! where_target; for compare_listings `args`, the two listings in `data`, and `stdout`.
//! `stored FOLDER check`: says whether the files there are these.
//!
//! The listing, in order: document 01's lines; three records of each opcode up to 153 that keep the rules;
//! plain records of the generator with seed 154 up to 6,000; frames up to the longest, which is longer than the
//! programs' buffer, with a few records after each; W-204's records; three of each vector opcode that keep the
//! rules; extended records of the generator with seed 204, 1,500 with these; the longest bodies that have the right
//! length, and those beside them, with a few records after each; and an end inside a frame, which prints `; cut`.
//! For list_target the same records are of version 2, with start addresses as a program has them, around 0, around
//! 2^32, and spread; but for the longest, which have no room for one and stay as they are.
//! For where_crate and where_straight, whose text has each body too: document 01's lines; bodies of
//! 0 to 81 bytes; the longest, and one nearly so, with records between them; W-204's records; and such an end. For
//! where_target these are of version 2, too.
//! For compare_listings: document 01's lines and 300 plain records of the generator with seed 154, of which
//! three quarters differ, by a bit of their last byte, in their length, or as a whole; long bodies, the longest
//! of which differ in their last byte; document 01's lines on both sides; W-204's records and 100 extended ones
//! with seed 204, which differ in the same ways; and document 01's lines in the first alone, which has such an end.

use oracle::{comparison_into, line_into, listing_into, with_start, Record, Sink, Slot, OPCODES};
use records::Random;
use std::fmt::Write;
use std::path::Path;

mod rows;

const SEED: u64 = 154;
const RECORDS: usize = 6000;
const EXTENDED_SEED: u64 = 204;
const EXTENDED_RECORDS: usize = 1500;

const MODES: [(u32, &str); 3] = [(0, "crate"), (1, "straight"), (2, "target")];

/// The first of the vector opcodes.
const VECTOR: usize = 154;

fn main() {
    let words: Vec<String> = std::env::args().skip(1).collect();
    let Some(folder) = words.first() else {
        eprintln!("use: stored FOLDER [check]");
        std::process::exit(2);
    };
    let check = words.get(1).is_some_and(|word| word == "check");
    let bodies = bodies();
    let mut same = true;
    for (mode, name) in MODES {
        let listing = with_cut(mode, &bodies);
        let text = lines(&listing, mode);
        same &= store_run(&Path::new(folder).join(format!("list_{name}")), check, &listing, &text);
        summary(&text, mode);
    }
    let bodies = located_bodies();
    for (mode, name) in MODES {
        let listing = with_cut(mode, &bodies);
        same &= store_run(&Path::new(folder).join(format!("where_{name}")), check, &listing, &located(&listing, mode));
    }
    same &= store_comparison(&Path::new(folder).join("compare_listings"), check);
    same &= store(&Path::new(folder).join("printed").join("rows.txt"), rows::text().as_bytes(), check);
    std::process::exit(if same { 0 } else { 1 })
}

/// The lines of a listing, by the oracle.
fn lines(listing: &[u8], mode: u32) -> Vec<u8> {
    let mut text = Sink::default();
    listing_into(listing, mode, &mut text).expect("000 prints what document 01 accepts");
    text.0
}

/// The same lines, each with the place of its record before it and its body after it.
fn located(listing: &[u8], mode: u32) -> Vec<u8> {
    let mut text = String::new();
    let mut at = 1;
    for (number, line) in String::from_utf8(lines(listing, mode)).expect("lines are letters").lines().enumerate() {
        if line == "; cut" {
            text.push_str("; cut\n");
            break;
        }
        let end = at + 2 + u16::from_be_bytes([listing[at], listing[at + 1]]) as usize;
        let body = &listing[at + 2..end];
        write!(text, "; record {number} at byte {at}\n{line} ;").expect("a text grows");
        for (i, byte) in body.iter().enumerate() {
            let before = if i > 0 && i % 40 == 0 { "\n; + " } else { " " };
            write!(text, "{before}{byte:02X}").expect("a text grows");
        }
        text.push_str(if body.is_empty() { " empty\n" } else { "\n" });
        at = end;
    }
    text.into_bytes()
}

/// Writes what a program is run on, or says whether what is there is the same.
fn store_run(place: &Path, check: bool, listing: &[u8], text: &[u8]) -> bool {
    let stdin = store(&place.join("stdin"), listing, check);
    store(&place.join("stdout"), text, check) && stdin
}

/// The same for the program that compares two: it is run beside what is in `data`.
fn store_comparison(place: &Path, check: bool) -> bool {
    let [first, second] = compared_listings();
    let mut text = Sink::default();
    comparison_into(&first, &second, 1, &mut text).expect("000 prints what document 01 accepts");
    let files: [(&str, &[u8]); 4] = [
        ("args", b"straight\nfirst.lst\nsecond.lst\n"),
        ("data/first.lst", &first),
        ("data/second.lst", &second),
        ("stdout", &text.0),
    ];
    files.iter().fold(true, |same, (name, bytes)| store(&place.join(name), bytes, check) && same)
}

/// Writes a file, or says whether it is there as it would be written.
fn store(file: &Path, bytes: &[u8], check: bool) -> bool {
    if check {
        let agrees = std::fs::read(file).is_ok_and(|stored| stored == bytes);
        println!("{}  {}", if agrees { "same   " } else { "DIFFERS" }, file.display());
        agrees
    } else {
        std::fs::create_dir_all(file.parent().expect("a file in a folder")).expect("the folder can be made");
        std::fs::write(file, bytes).expect("the file can be written");
        println!("{:>7} bytes  {}", bytes.len(), file.display());
        true
    }
}

fn bodies() -> Vec<Vec<u8>> {
    let mut bodies = documented();
    let mut random = Random::new(SEED);
    three_of_each(0..VECTOR, || records::sound_plain_body(&mut random), &mut bodies);
    while bodies.len() < RECORDS {
        let body = records::plain_body(&mut random);
        // the long ones are chosen below
        if body.len() < 1000 {
            bodies.push(body);
        }
    }
    let some: Vec<Vec<u8>> = bodies[..40].to_vec();
    for length in [1284, 1289, 1290, 65_535, 40_000, 65_534] {
        // a count of 255 with as many operands as it says is as long as 1,289 bytes
        let mut body = vec![0; length];
        body[3] = 1;
        body[13] = ((length - 14) / 5).min(255) as u8;
        bodies.push(body);
        bodies.extend_from_slice(&some);
    }
    extended(&mut bodies);
    bodies
}

/// Three records of each of these opcodes that are printed.
fn three_of_each(opcodes: std::ops::Range<usize>, mut next: impl FnMut() -> Vec<u8>, bodies: &mut Vec<Vec<u8>>) {
    let mut owed = vec![3; opcodes.len()];
    while owed.iter().any(|&count| count > 0) {
        let body = next();
        let opcode = u16::from_be_bytes([body[0], body[1]]) as usize;
        if opcodes.contains(&opcode)
            && owed[opcode - opcodes.start] > 0
            && line_into(1, &body, 0, &mut Sink::default()) == Ok(0)
        {
            owed[opcode - opcodes.start] -= 1;
            bodies.push(body);
        }
    }
}

/// The extended records of the listing, after the plain ones.
fn extended(bodies: &mut Vec<Vec<u8>>) {
    let some = documented_vector();
    let last = bodies.len() + EXTENDED_RECORDS;
    bodies.extend_from_slice(&some);
    let mut random = Random::new(EXTENDED_SEED);
    three_of_each(VECTOR..OPCODES as usize, || records::sound_extended_body(&mut random), bodies);
    while bodies.len() < last {
        bodies.push(records::extended_body(&mut random));
    }
    // a count of 255 with masked operands alone is as long as 1,546 bytes, all of five 1,289 and two
    for (operand, lengths) in [(&[17, 0, 0, 0, 0, 73][..], [1545, 1546, 1547]), (&[3, 0, 0, 0, 0], [1289, 1290, 1291])] {
        for length in lengths {
            let mut body = vec![0; 14];
            body[1] = VECTOR as u8;
            body[3] = 1;
            body[13] = 255;
            body.extend(operand.repeat(255));
            body.resize(length, 0);
            bodies.push(body);
            bodies.extend_from_slice(&some[..10]);
        }
    }
}

fn located_bodies() -> Vec<Vec<u8>> {
    let some = documented();
    let mut bodies = some.clone();
    for length in (0..82).chain([65_535, 65_000]) {
        bodies.push((0..length).map(|i| (i * 7 % 251) as u8).collect());
        if length > 80 {
            bodies.extend_from_slice(&some);
        }
    }
    bodies.extend(documented_vector());
    bodies
}

fn compared_listings() -> [Vec<u8>; 2] {
    let some = documented();
    let mut first = some.clone();
    let mut random = Random::new(SEED);
    while first.len() < some.len() + 300 {
        let body = records::plain_body(&mut random);
        if (14..1000).contains(&body.len()) {
            first.push(body);
        }
    }
    let mut second = differing(&first);
    for (length, last) in [(65_535, 1), (40_000, 0), (65_534, 0), (65_535, 1)] {
        let mut body = vec![0; length];
        first.push(body.clone());
        body[length - 1] = last;
        second.push(body);
    }
    first.extend_from_slice(&some);
    second.extend_from_slice(&some);
    let mut extended = documented_vector();
    let mut random = Random::new(EXTENDED_SEED);
    while extended.len() < documented_vector().len() + 100 {
        let body = records::extended_body(&mut random);
        if (14..1000).contains(&body.len()) {
            extended.push(body);
        }
    }
    second.extend(differing(&extended));
    first.extend(extended);
    first.extend_from_slice(&some);
    [with_cut(1, &first), whole(1, &second)]
}

/// The same records, of which three quarters differ.
fn differing(bodies: &[Vec<u8>]) -> Vec<Vec<u8>> {
    let mut others = bodies.to_vec();
    for (at, body) in others.iter_mut().enumerate() {
        match at % 4 {
            0 => {}
            1 => *body.last_mut().expect("14 bytes or more") ^= 1,
            2 => body[3] ^= 1,
            _ => *body = bodies[at - 1].clone(),
        }
    }
    others
}

/// The start address of a record by its number.
fn start(number: usize) -> u32 {
    let number = number as u32;
    match number % 4 {
        // as in a program
        0 => 0x0040_1000 + 4 * number,
        // around 0 and 2^32, so that targets lie on the other side
        1 => number / 4 % 150,
        2 => u32::MAX - number / 4 % 150,
        _ => number.wrapping_mul(0x9e37_79b9),
    }
}

/// The same bodies in version 2. The longest that a frame holds have no room for an address and stay as they are.
fn addressed(bodies: &[Vec<u8>]) -> Vec<Vec<u8>> {
    let put_in = |(number, body): (usize, &Vec<u8>)| match body.len() {
        0..=65_531 => with_start(body, start(number)),
        _ => body.clone(),
    };
    bodies.iter().enumerate().map(put_in).collect()
}

fn whole(version: u8, bodies: &[Vec<u8>]) -> Vec<u8> {
    let mut listing = vec![version];
    for body in bodies {
        listing.extend((body.len() as u16).to_be_bytes());
        listing.extend_from_slice(body);
    }
    listing
}

/// A mode's listing of these bodies, which ends inside a frame: one of nineteen bytes that has seven. Mode 2 needs the
/// start addresses.
fn with_cut(mode: u32, bodies: &[Vec<u8>]) -> Vec<u8> {
    let mut listing = if mode == 2 { whole(2, &addressed(bodies)) } else { whole(1, bodies) };
    listing.extend([0, 19, 0, 0, 0, 5, 0, 0, 0]);
    listing
}

/// The records of document 01's "lines to compare".
fn documented() -> Vec<Vec<u8>> {
    let slot = |kind, segment, first| Slot { kind, segment, first, ..Slot::default() };
    let with = |opcode, length, mem_size, imm: i32, disp: i32, slots: &[Slot]| {
        let mut record = Record {
            opcode,
            length,
            mem_size,
            imm: imm as u32,
            disp,
            count: slots.len() as u8,
            ..Record::default()
        };
        record.slots[..slots.len()].copy_from_slice(slots);
        record.body()
    };
    let mut bodies = Vec::new();
    for disp in [i32::MIN, 9, 10, -160] {
        bodies.push(with(23, 6, 4, 0, disp, &[slot(1, 0, 0), slot(12, 0, 0)]));
    }
    bodies.push(with(33, 2, 0, -1, 0, &[slot(3, 0, 0)]));
    for distance in [125, 126] {
        bodies.push(with(0, 2, 0, distance, 0, &[slot(3, 0, 0)]));
    }
    for distance in [122, 123, 250, 251, i32::MAX] {
        bodies.push(with(0, 5, 0, distance, 0, &[slot(5, 0, 0)]));
    }
    for imm in [10, 266] {
        bodies.push(with(103, 2, 0, imm, 0, &[slot(6, 0, 0)]));
    }
    bodies.push(with(143, 2, 0, 0, 0, &[slot(1, 0, 32), slot(2, 0, 32)]));
    bodies.push(with(149, 2, 0, 0, 0, &[slot(2, 0, 32), slot(1, 0, 32)]));
    bodies.push(with(39, 3, 63, 0, 0, &[slot(11, 5, 1)]));
    bodies.push(with(65, 3, 4, 0, 0, &[slot(1, 0, 0), slot(2, 0, 10)]));
    bodies.push(with(60, 1, 1, 0, 0, &[slot(11, 1, 7), slot(11, 4, 6)]));
    for address in [0xabcd, 0xabc] {
        bodies.push(with(23, 5, 4, 0, address, &[slot(1, 0, 0), slot(9, 0, 0)]));
    }
    for length in [15, 0, 16] {
        bodies.push(with(80, length, 0, 0, 0, &[]));
    }
    bodies
}

/// Records of W-204's own words: masks, VPSCATTER, `{1toN}`, tails and the refusals.
fn documented_vector() -> Vec<Vec<u8>> {
    const ZMM: u8 = 64;
    const K: u8 = 72;
    let register = |kind, first| Slot { kind, first, ..Slot::default() };
    let eax = Slot { kind: 17, mask: K + 1, ..Slot::default() };
    let scatter = Slot { kind: 15, second: ZMM + 1, scale: 4, ..Slot::default() };
    let memory = Slot { kind: 11, ..Slot::default() };
    let with = |opcode, mem_size, flags, (length_bits, tail), slots: &[Slot]| {
        let mut record = Record {
            opcode,
            flags,
            length: 6,
            mem_size,
            disp: 4,
            count: slots.len() as u8,
            length_bits,
            tail,
            ..Record::default()
        };
        record.slots[..slots.len()].copy_from_slice(slots);
        record.body()
    };
    let mut bodies = Vec::new();
    // `[eax + 4]{k1}`: each masked kind, in MOV, LEA and LODS
    for kind in 17..=22 {
        let scale = if kind > 18 { 2 } else { 0 };
        let slot = Slot { kind, scale, mask: K + kind - 16, ..Slot::default() };
        for opcode in [23, 101, 89] {
            bodies.push(with(opcode, 4, 0, (0, 0), &[register(1, 0), slot]));
        }
    }
    // vpscatterdd dword ptr [eax + zmm1 * 4]{k1}, zmm2
    for opcode in 154..158 {
        bodies.push(with(opcode, 0, 0, (0, 0), &[scatter, register(2, K + 1), register(1, ZMM + 2)]));
        bodies.push(with(opcode, 0, 0, (0, 0), &[eax, register(2, K + 1), register(1, ZMM + 2)]));
    }
    // `[eax]{k1}{1to4}`, by both tables and by the widths
    for opcode in 158..176 {
        for length_bits in 0..4 {
            bodies.push(with(opcode, 8, 64, (length_bits, 0), &[register(1, ZMM), eax]));
        }
    }
    for bank in 0..10 {
        for mem_size in [1, 2, 4, 8] {
            bodies.push(with(175, mem_size, 64, (0, 0), &[register(1, 8 * bank), memory]));
        }
    }
    for end in [(0, 0), (0, 1), (0, 2), (1, 2), (2, 2), (3, 2), (4, 0), (0, 3)] {
        bodies.push(with(175, 0, 0, end, &[register(1, ZMM), register(2, ZMM + 1)]));
        bodies.push(with(175, 0, 0, end, &[]));
    }
    // k0 as a mask, and what a record that is not extended has not
    bodies.push(with(35, 4, 0, (0, 0), &[Slot { mask: K, ..eax }]));
    bodies.push(with(23, 4, 64, (0, 0), &[register(1, 0), memory]));
    bodies.push(with(23, 4, 0, (0, 0), &[register(1, ZMM)]));
    bodies.push(with(23, 4, 0, (0, 0), &[scatter]));
    // a masked operand that is not shown, and the same without the two bytes
    let mut hidden = with(80, 0, 0, (0, 0), &[register(1, 0), eax]);
    bodies.push(hidden.clone());
    hidden.truncate(hidden.len() - 2);
    bodies.push(hidden);
    bodies
}

fn summary(text: &[u8], mode: u32) {
    let text = String::from_utf8_lossy(text);
    let refused = |answer: u8| text.lines().filter(|line| *line == format!("; refused {answer}")).count();
    println!(
        "mode {mode}: {} lines, refused 2: {}, 3: {}, 4: {}, 5: {}, 7: {}, last line {:?}",
        text.lines().count(), refused(2), refused(3), refused(4), refused(5), refused(7), text.lines().last().unwrap_or("")
    );
}
