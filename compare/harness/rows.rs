//! The rows of crates/printed: records that are chosen by document 01's cases, by W-204's and by the arms
//! of document 000, with what the oracle makes of each, and a few listings. The choice knows these three
//! and no crate; the answers and the texts are the oracle's.
//!
//! `text()` is the stored file: one row a line, fields parted by ` | `,
//!
//!     modes | body in hex | answer | line
//!     listing modes | bytes in hex | answer | line / line ..
//!     listing modes | a byte in hex x how often | answer | line / line ..
//!
//! A line that starts with `##` names the part of the table that begins there, one with `#` what the
//! rows after it show. compare/table makes the table of it.

use oracle::{line_into, listing_into, name_of, print_listing, Record, Sink, Slot, MAX_LISTING, OPCODES};

mod arms;
mod general;
mod listings;
mod refusals;
mod vector;

const XACQUIRE: u8 = 1;
const XRELEASE: u8 = 2;
const LOCK: u8 = 4;
const REP: u8 = 8;
const REPNZ: u8 = 16;
const OPERAND_SIZE: u8 = 32;
const BROADCAST: u8 = 64;

// register bytes: 8 times bank plus number
const EAX: u8 = 0;
const ECX: u8 = 1;
const EDX: u8 = 2;
const EBX: u8 = 3;
const EBP: u8 = 5;
const ESI: u8 = 6;
const EDI: u8 = 7;
const AX: u8 = 8;
const CX: u8 = 9;
const DX: u8 = 10;
const BX: u8 = 11;
const BP: u8 = 13;
const SI: u8 = 14;
const DI: u8 = 15;
const AL: u8 = 16;
const BH: u8 = 23;
const ES: u8 = 24;
const GS: u8 = 29;
const ST0: u8 = 32;
const MM0: u8 = 40;
const XMM0: u8 = 48;
const YMM0: u8 = 56;
const ZMM0: u8 = 64;
const K0: u8 = 72;

// segment numbers
const SEG_ES: u8 = 1;
const SEG_CS: u8 = 2;
const SEG_SS: u8 = 3;
const SEG_DS: u8 = 4;
const SEG_FS: u8 = 5;
const SEG_GS: u8 = 6;

// operands by kind
const I8: Slot = bytes(3, 0, 0, 0, 0);
const I16: Slot = bytes(4, 0, 0, 0, 0);
const I32: Slot = bytes(5, 0, 0, 0, 0);
const U8: Slot = bytes(6, 0, 0, 0, 0);
const U16: Slot = bytes(7, 0, 0, 0, 0);
const U32: Slot = bytes(8, 0, 0, 0, 0);

const fn bytes(kind: u8, segment: u8, first: u8, second: u8, scale: u8) -> Slot {
    Slot { kind, segment, first, second, scale, mask: 0 }
}
const fn r(register: u8) -> Slot {
    bytes(1, 0, register, 0, 0)
}
const fn m(register: u8) -> Slot {
    bytes(2, 0, register, 0, 0)
}
const fn word() -> Slot {
    bytes(9, 0, 0, 0, 0)
}
const fn dword() -> Slot {
    bytes(10, 0, 0, 0, 0)
}
const fn at(register: u8) -> Slot {
    bytes(11, 0, register, 0, 0)
}
const fn near(register: u8) -> Slot {
    bytes(12, 0, register, 0, 0)
}
const fn index(register: u8, scale: u8) -> Slot {
    bytes(13, 0, register, 0, scale)
}
const fn index_near(register: u8, scale: u8) -> Slot {
    bytes(14, 0, register, 0, scale)
}
const fn both(base: u8, register: u8, scale: u8) -> Slot {
    bytes(15, 0, base, register, scale)
}
const fn both_near(base: u8, register: u8, scale: u8) -> Slot {
    bytes(16, 0, base, register, scale)
}
const fn seg(segment: u8, slot: Slot) -> Slot {
    Slot { segment, ..slot }
}
/// Each form of a bracket, with a scale of 1 and with another.
const BRACKETS: [Slot; 10] = [
    at(EBX),
    near(EBX),
    index(ESI, 1),
    index(ESI, 2),
    index_near(ESI, 1),
    index_near(ESI, 8),
    both(EBX, ESI, 1),
    both(EBX, ESI, 4),
    both_near(EBX, ESI, 1),
    both_near(EBX, ESI, 8),
];
/// A bracket with the mask k1 to k7.
const fn masked(mask: u8, slot: Slot) -> Slot {
    Slot { kind: slot.kind + 6, mask: K0 + mask, ..slot }
}

/// What is changed in a record beside its operands.
trait Fields {
    fn size(self, size: u8) -> Record;
    fn imm(self, imm: i64) -> Record;
    fn disp(self, disp: i64) -> Record;
    fn flags(self, flags: u8) -> Record;
    fn long(self, length: u8) -> Record;
    /// length bits and tail
    fn end(self, length_bits: u8, tail: u8) -> Record;
}

impl Fields for Record {
    fn size(self, mem_size: u8) -> Record {
        Record { mem_size, ..self }
    }
    fn imm(self, imm: i64) -> Record {
        Record { imm: imm as u32, ..self }
    }
    fn disp(self, disp: i64) -> Record {
        Record { disp: disp as i32, ..self }
    }
    fn flags(self, flags: u8) -> Record {
        Record { flags, ..self }
    }
    fn long(self, length: u8) -> Record {
        Record { length, ..self }
    }
    fn end(self, length_bits: u8, tail: u8) -> Record {
        Record { length_bits, tail, ..self }
    }
}

/// A record of an opcode by its printed name.
fn op(name: &str, slots: &[Slot]) -> Record {
    let opcode = (0..OPCODES).find(|&number| name_of(number) == name);
    let mut record = Record {
        opcode: opcode.unwrap_or_else(|| panic!("no opcode {name}")),
        length: 4,
        count: slots.len() as u8,
        ..Record::default()
    };
    record.slots[..slots.len()].copy_from_slice(slots);
    record
}

#[derive(Default)]
struct Rows {
    text: String,
    bodies: Vec<Vec<u8>>,
    accepted: Vec<u16>,
    answers: [usize; 8],
}

/// The stored file, whole.
pub fn text() -> String {
    let mut rows = Rows::default();
    rows.text.push_str(
        "# What document 000 prints, with document 01's refusals in front: modes | body | answer | line.\n\
         # Made by compare/stored from the oracle alone; not to be edited by hand.\n",
    );
    rows.part("branch");
    general::branches(&mut rows);
    rows.part("general");
    general::general(&mut rows);
    rows.part("name");
    general::names(&mut rows);
    general::labels(&mut rows);
    general::strings(&mut rows);
    rows.part("arm");
    arms::arms(&mut rows);
    arms::floating(&mut rows);
    rows.part("refusal");
    refusals::lengths(&mut rows);
    refusals::fields(&mut rows);
    refusals::shapes(&mut rows);
    refusals::sizes(&mut rows);
    refusals::order(&mut rows);
    refusals::modes(&mut rows);
    refusals::vector_lengths(&mut rows);
    refusals::vector_fields(&mut rows);
    refusals::vector_shapes(&mut rows);
    refusals::vector_sizes(&mut rows);
    refusals::counts(&mut rows);
    refusals::vector_order(&mut rows);
    rows.part("listing");
    listings::listings(&mut rows);
    listings::vector_listings(&mut rows);
    rows.part("mask");
    vector::masks(&mut rows);
    vector::hidden(&mut rows);
    rows.part("vector");
    vector::registers(&mut rows);
    vector::scatters(&mut rows);
    vector::counts(&mut rows);
    vector::tails(&mut rows);
    rows.part("limit");
    listings::limits(&mut rows);
    for opcode in 0..OPCODES {
        let count = rows.accepted.iter().filter(|&&one| one == opcode).count();
        assert!(count >= 2, "{} has {count} rows", name_of(opcode));
    }
    // 6 depends on the buffer, for which a row stands in any case
    let there = [0, 1, 2, 3, 4, 5, 7].iter().all(|&answer: &usize| rows.answers[answer] > 0);
    assert!(there, "an answer has no row");
    rows.text
}

/// Numbers of no mode.
const NO_MODES: [u32; 2] = [3, u32::MAX];

/// The oracle's answer and line for a version 1 body.
fn said(body: &[u8], mode: u32) -> (u8, String) {
    let mut line = Sink::default();
    let answer = line_into(1, body, mode, &mut line).expect("000 prints what document 01 accepts");
    (answer, String::from_utf8(line.0).expect("a line is ASCII"))
}

/// As a row has them.
fn no_modes() -> String {
    NO_MODES.map(|mode| mode.to_string()).join(" ")
}

/// A body in hex, its fields parted by blanks; of one that is too short, what there is of it.
fn hex(body: &[u8]) -> String {
    let mut starts = vec![2, 3, 4, 5, 9, 13];
    let mut operands = 0;
    let mut extended = matches!(body, [0, 154..=175, ..]);
    let mut start = 14;
    while start < body.len() {
        starts.push(start);
        let masked = matches!(body[start], 17..=22);
        // the two bytes after the operands each stand alone
        start += match masked {
            _ if extended && operands == body[13] => 1,
            true => 6,
            false => 5,
        };
        if operands < body[13] {
            extended |= masked;
            operands += 1;
        }
    }
    let mut text = String::new();
    for (place, byte) in body.iter().enumerate() {
        if starts.contains(&place) {
            text.push(' ');
        }
        text.push_str(&format!("{byte:02X}"));
    }
    text
}

impl Rows {
    fn part(&mut self, name: &str) {
        self.text.push_str(&format!("## {name}\n"));
    }

    fn section(&mut self, what: &str) {
        self.text.push_str(&format!("# {what}\n"));
    }

    fn row(&mut self, modes: &str, body: &[u8], (answer, line): (u8, String)) {
        self.answers[answer as usize] += 1;
        if answer == 0 {
            self.accepted.push(u16::from_be_bytes([body[0], body[1]]));
        }
        self.text.push_str(format!("{modes} | {} | {answer} | {line}", hex(body)).trim_end());
        self.text.push('\n');
    }

    /// One row where the modes agree, else two. A body that has its row has no second one.
    fn body(&mut self, body: &[u8]) {
        if self.bodies.iter().any(|one| one == body) {
            return;
        }
        self.bodies.push(body.to_vec());
        let (crate_, straight) = (said(body, 0), said(body, 1));
        if crate_ == straight {
            self.row("0 1", body, crate_);
        } else {
            self.row("0", body, crate_);
            self.row("1", body, straight);
        }
    }

    /// A row of the numbers that are no mode.
    fn refused_modes(&mut self, body: &[u8]) {
        let [answer, other] = NO_MODES.map(|mode| said(body, mode));
        assert_eq!(answer, other);
        self.row(&no_modes(), body, answer);
    }

    fn record(&mut self, record: Record) {
        self.body(&record.body());
    }

    /// The arm of these opcodes: the forms that tell it from other arms with each opcode, and with rep,
    /// which few opcodes print; and the other forms with the first. Where one form alone tells, each
    /// opcode has another one too, in turn.
    fn arm(&mut self, names: &[&str], telling: &[Record], others: &[Record]) {
        for (k, name) in names.iter().enumerate() {
            let opcode = op(name, &[]).opcode;
            let more = match (k, telling.len()) {
                (0, _) => others,
                (_, 1) => &others[k % others.len()..][..1],
                _ => &[],
            };
            for &form in telling {
                self.record(Record { opcode, flags: form.flags | REP, ..form });
            }
            for &form in more {
                self.record(Record { opcode, ..form });
            }
        }
    }
}
