//! `decode FOLDER [i386 ELF file]..`: instructions that the published crate decodes, as records. For
//! each, 000's line on the crate's own decoder, names, labels and segment rules is compared with the
//! oracle's. The code is the text section of each file, two million tries of random bytes, and one million of
//! random bytes after the prefixes and opcodes that the vector instructions have.
//! FOLDER gets `listing` and `lines`, for the listing program of mode 0.

#[path = "elf.rs"]
mod elf;
#[path = "record_of.rs"]
mod record_of;

use elf::text_section;
use oracle::{line_into, name_of, Sink, OPCODES};
use record_of::record_of;
use records::Random;
use std::collections::{BTreeMap, HashMap};
use std::panic::{catch_unwind, AssertUnwindSafe};
use yaxpeax_x86::protected_mode::records::{fields, has_evex, length, line};
use yaxpeax_x86::protected_mode::{InstDecoder, Instruction};

const RANDOM: usize = 2_000_000;
const VECTOR: usize = 1_000_000;

/// The first bytes of opcodes behind prefixes and pages, which random bytes hardly ever reach.
const RARE: [&[u8]; 17] = [
    &[0x66, 0x0f],
    &[0xf2, 0x0f],
    &[0xf3, 0x0f],
    &[0x0f, 0x01],
    &[0x66, 0x0f, 0x01],
    &[0xf2, 0x0f, 0x01],
    &[0xf3, 0x0f, 0x01],
    &[0x0f, 0x18],
    &[0x0f, 0xae],
    &[0x66, 0x0f, 0xae],
    &[0xf3, 0x0f, 0xae],
    &[0x0f, 0x38],
    &[0x66, 0x0f, 0x38],
    &[0x66, 0x0f, 0x38, 0x10],
    &[0x66, 0x0f, 0x38, 0xf5],
    &[0x66, 0x0f, 0x3a],
    &[0xf3, 0x0f, 0x3a, 0xf0, 0xc0],
];

#[derive(Default)]
struct Found {
    decoded: usize,
    no_number: usize,
    no_record: usize,
    /// the same by name
    unheld: BTreeMap<String, usize>,
    same: usize,
    /// lines of the crate with `{rne-sae}`
    nearest: usize,
    /// lines that are the same but for `mmword`: the crate's 000 looks for plain registers, and a register of an EVEX
    /// instruction is another case there, also without a mask
    mmword: (usize, String, String),
    /// records of ours, by answer, where the crate's 000 panics
    panics: BTreeMap<(u8, String), (usize, String)>,
    /// opcode -> how often, first body, both lines
    differ: BTreeMap<String, (usize, String, String, String)>,
    opcodes: BTreeMap<u16, usize>,
    listing: Vec<u8>,
    lines: Vec<u8>,
}

fn main() {
    std::panic::set_hook(Box::new(|_| {}));
    let words: Vec<String> = std::env::args().skip(1).collect();
    let numbers: HashMap<String, u16> =
        (0..OPCODES).map(|number| (name_of(number).to_uppercase(), number)).collect();
    let decoder = InstDecoder::default();
    let mut found = Found { listing: vec![1], ..Found::default() };
    for file in &words[1..] {
        let bytes = std::fs::read(file).expect("the file can be read");
        let code = text_section(&bytes).expect("a 32-bit ELF file with a text section");
        let mut at = 0;
        while at < code.len() {
            let end = code.len().min(at + 15);
            at += match decoder.decode_slice(&code[at..end]) {
                Ok(instruction) => found.compare(&instruction, &numbers),
                Err(_) => 1,
            };
        }
        println!("{file}: {} bytes of code", code.len());
    }
    let mut random = Random::new(1);
    for _ in 0..RANDOM {
        let mut code = [0; 15];
        code.fill_with(|| random.byte());
        // now and then a prefix or the second opcode page, which chance alone seldom gives
        if random.chance(1, 3) {
            code[0] = random.pick(&[0x0f, 0x0f, 0x0f, 0x66, 0xf2, 0xf3, 0x64, 0x3e, 0xf0, 0xd8, 0xdb, 0xdd, 0xdf]);
        }
        if random.chance(1, 4) {
            let start = random.pick(&RARE);
            code[..start.len()].copy_from_slice(start);
        }
        if let Ok(instruction) = decoder.decode_slice(&code) {
            found.compare(&instruction, &numbers);
        }
    }
    for _ in 0..VECTOR {
        let code = vector_code(&mut random);
        if let Ok(instruction) = decoder.decode_slice(&code) {
            found.compare(&instruction, &numbers);
        }
    }
    let ended = found.report();
    std::fs::write(format!("{}/listing", words[0]), &found.listing).expect("the folder can be written");
    std::fs::write(format!("{}/lines", words[0]), &found.lines).expect("the folder can be written");
    std::process::exit(ended)
}

/// Opcode bytes of the vector instructions by their page: 0F, 0F 38, 0F 3A.
const PAGES: [&[u8]; 3] = [&[0x58, 0x5a, 0x5b, 0xe6, 0x78, 0x79, 0x7a, 0x7b], &[0xa0, 0xa1, 0x72], &[0x66]];

/// An EVEX prefix, or now and then a VEX one, with all bits that 32-bit code can choose by chance, and an opcode. Most
/// have no mask, since a register with one is in no record.
fn vector_code(random: &mut Random) -> [u8; 15] {
    let mut code = [0; 15];
    code.fill_with(|| random.byte());
    let page = random.pick(&[0, 0, 0, 0, 1, 1, 2]);
    let at = random.below(2);
    // segments and a size of addresses may stand before it
    code[0] = random.pick(&[0x64, 0x65, 0x67, 0x3e, 0x2e]);
    if random.chance(1, 8) {
        code[at] = 0xc5;
        code[at + 1] |= 0xc0;
        code[at + 2] = random.pick(PAGES[0]);
        return code;
    }
    code[at] = 0x62;
    code[at + 1] = 0xf0 | 1 + page as u8;
    code[at + 2] = random.byte() | 0x04;
    code[at + 3] = random.byte() | 0x08;
    // vvvv is for those with three operands
    if random.chance(3, 4) {
        code[at + 2] |= 0x78;
    }
    if page != 1 && random.chance(3, 4) {
        code[at + 3] &= 0x78;
    }
    code[at + 4] = random.pick(PAGES[page]);
    // the decoder takes a VPSCATTER without an index, and a processor does not
    if page == 1 && random.chance(7, 8) {
        code[at + 5] = random.pick(&[0x04, 0x44, 0x84]) | code[at + 5] & 0x38;
    }
    code
}

impl Found {
    /// Returns the instruction's length.
    fn compare(&mut self, instruction: &Instruction, numbers: &HashMap<String, u16>) -> usize {
        self.decoded += 1;
        let parts = fields(instruction);
        let length = length(instruction) as usize;
        let Some(&opcode) = numbers.get(&format!("{:?}", instruction.opcode())) else {
            self.no_number += 1;
            return length;
        };
        let Some(parts) = parts else {
            self.no_record += 1;
            *self.unheld.entry(name_of(opcode).into()).or_default() += 1;
            return length;
        };
        let body = record_of(opcode, &parts).body();
        *self.opcodes.entry(opcode).or_default() += 1;
        let mut theirs = String::new();
        let printed = catch_unwind(AssertUnwindSafe(|| line(instruction, &mut theirs)));
        // version 2.0.0 has a word of its own for the Intel manual's
        if let Some(manual) = theirs.strip_suffix("{rne-sae}") {
            theirs = format!("{manual}{{rn-sae}}");
            self.nearest += 1;
        }
        let mut ours = Sink::default();
        let answer = line_into(1, &body, 0, &mut ours).expect("000 prints what document 01 accepts");
        let hex: String = body.iter().map(|byte| format!("{byte:02X}")).collect();
        self.listing.extend((body.len() as u16).to_be_bytes());
        self.listing.extend_from_slice(&body);
        let ours = match answer {
            0 => String::from_utf8_lossy(&ours.0).into_owned(),
            refused => format!("; refused {refused}"),
        };
        self.lines.extend_from_slice(ours.as_bytes());
        self.lines.push(b'\n');
        if printed.is_err() {
            let case = self.panics.entry((answer, name_of(opcode).into())).or_insert((0, hex));
            case.0 += 1;
        } else if ours == theirs {
            self.same += 1;
        } else if has_evex(instruction) && ours.replace("mmword ptr", "qword ptr") == theirs {
            if self.mmword.0 == 0 {
                self.mmword = (0, ours, theirs);
            }
            self.mmword.0 += 1;
        } else {
            let case = self.differ.entry(kind_of_difference(name_of(opcode), &ours, &theirs)).or_insert((0, hex, ours, theirs));
            case.0 += 1;
        }
        length
    }

    fn report(&self) -> i32 {
        println!(
            "{} decoded; {} of other opcodes, {} with operands that no record holds; {} same lines, of {} opcodes",
            self.decoded, self.no_number, self.no_record, self.same, self.opcodes.len()
        );
        let unheld: Vec<String> = self.unheld.iter().map(|(name, count)| format!("{name} {count}")).collect();
        println!("no record holds: {}", unheld.join(", "));
        println!("the crate's {{rne-sae}} taken for {{rn-sae}}: {} times", self.nearest);
        let (times, ours, theirs) = &self.mmword;
        println!("EVEX, and `qword` where we have `mmword`: {times} times, first\n  ours   {ours}\n  crate  {theirs}");
        for ((answer, name), (count, body)) in &self.panics {
            println!("the crate's 000 panics, we answer {answer}: {name}, {count} times, first {body}");
        }
        for (what, (count, body, ours, theirs)) in &self.differ {
            println!("DIFFERENT {what}, {count} times\n  body   {body}\n  ours   {ours}\n  crate  {theirs}");
        }
        let never: Vec<&str> =
            (0..OPCODES).filter(|number| !self.opcodes.contains_key(number)).map(name_of).collect();
        println!("never decoded: {}", never.join(" "));
        !self.differ.is_empty() as i32
    }
}

/// Differences of one opcode that say the same are counted together.
fn kind_of_difference(name: &str, ours: &str, theirs: &str) -> String {
    let refused = ours.strip_prefix("; ").unwrap_or("a line");
    let mark = if theirs.contains("BUG") { " with BUG" } else { "" };
    format!("{name}: {refused} against a line{mark}")
}
