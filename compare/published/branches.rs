//! Branches for the judges: records at the edges of both kinds, and the table of what an assembler made of their lines.

use oracle::{is_branch, Record, Slot};
use std::cmp::Ordering;
use std::collections::BTreeMap;

const CALL: u16 = 1;
const XBEGIN: u16 = 22;

/// What of a record's length an assembler can be asked for.
#[derive(Clone, Copy, PartialEq, Eq, PartialOrd, Ord)]
pub enum Class {
    Shortest,
    Prefixed,
    Narrow,
    NoCode,
}

impl Class {
    pub fn of(record: &Record) -> Class {
        let short = record.slots[0].kind == 3;
        // JECXZ and the three LOOPs are short alone, CALL and XBEGIN long alone
        if matches!((record.opcode, short), (2..=5, false) | (CALL | XBEGIN, true)) {
            return Class::NoCode;
        }
        match record.length.cmp(&shortest(record)) {
            Ordering::Equal => Class::Shortest,
            Ordering::Greater => Class::Prefixed,
            Ordering::Less => Class::Narrow,
        }
    }

    fn words(self) -> &'static str {
        match self {
            Class::Shortest => "no needless byte",
            Class::Prefixed => "a needless prefix byte",
            Class::Narrow => "a distance of 16 bits",
            Class::NoCode => "no code has it",
        }
    }
}

/// The bytes of a branch with no prefix: opcode, and a distance of 8 or 32 bits.
fn shortest(record: &Record) -> u8 {
    match (record.slots[0].kind, record.opcode) {
        (3, _) => 2,
        (_, 0 | CALL) => 5,
        _ => 6,
    }
}

/// Where a branch goes, from its first byte on.
pub fn target(record: &Record) -> u32 {
    let distance = if record.slots[0].kind == 3 { record.imm as i8 as u32 } else { record.imm };
    distance.wrapping_add(record.length as u32)
}

/// Whether mode 0 prints another sum than the target.
pub fn wraps(record: &Record) -> bool {
    is_branch(record) && record.slots[0].kind == 3 && target(record) as i8 as u32 != target(record)
}

/// Each branch of each kind at the edges of its distances and of its sums, and some with a prefix byte more.
pub fn edges() -> Vec<Record> {
    let mut records = Vec::new();
    for opcode in 0..=XBEGIN {
        for (kind, distances, prefixed) in [
            (3, &[-128, -3, -2, 0, 20, 125, 126, 127][..], &[-128, 20, 126, 127][..]),
            (5, &[i32::MIN, -129, -6, 0, 20, 122, 123, 250, 251, i32::MAX], &[-129, 20, 123]),
        ] {
            let mut record = Record { opcode, count: 1, ..Record::default() };
            record.slots[0] = Slot { kind, ..Slot::default() };
            if is_branch(&record) {
                let length = shortest(&record);
                let with = |length| move |&distance: &i32| Record { imm: distance as u32, length, ..record };
                records.extend(distances.iter().map(with(length)));
                records.extend(prefixed.iter().map(with(length + 1)));
            }
        }
    }
    records
}

/// What came of the lines of one class.
#[derive(Default)]
struct Row {
    asked: usize,
    accepted: usize,
    target: usize,
    length: usize,
    /// what is not so: how often, and the first line with what was seen
    misses: BTreeMap<String, (usize, String)>,
}

/// What assemblers say of a line that they refuse, without the place and the numbers.
fn refusal<'a>(why: &'a str, line: &str) -> &'a str {
    if why.contains("too far") || why.contains("too large") {
        "refused, too far for one byte"
    } else if why.contains("not possible in current CPU mode") {
        "refused, there is no such form"
    } else if line.starts_with("xbegin") {
        "refused, xbegin is not known"
    } else {
        why
    }
}

/// One judge's branches in one mode, by class.
#[derive(Default)]
pub struct Table(BTreeMap<Class, Row>);

impl Table {
    /// `made` is the record that the assembled bytes decode to, or why there is none.
    pub fn add(&mut self, record: &Record, line: &str, made: Result<Record, String>) {
        let row = self.0.entry(Class::of(record)).or_default();
        row.asked += 1;
        let mut miss = |what: String, seen: String| {
            row.misses.entry(what).or_insert_with(|| (0, format!("{line:40} {seen}"))).0 += 1;
        };
        match made {
            Err(why) => miss(refusal(&why, line).to_string(), why),
            Ok(made) => {
                row.accepted += 1;
                if target(record) == target(&made) {
                    row.target += 1;
                } else {
                    miss("another target".into(), format!("goes to {:+}, record {:+}", target(&made) as i32, target(record) as i32));
                }
                let seen = format!("{} bytes, record {}", made.length, record.length);
                match made.length {
                    length if length == record.length => row.length += 1,
                    length if length == shortest(record) && length < record.length => {
                        miss("without the needless bytes".into(), seen)
                    }
                    length => miss(format!("{length} bytes for {}", shortest(record)), seen),
                }
            }
        }
    }

    /// Whether every line that was accepted goes to its record's target and, if asked, has its length where no byte of
    /// the record is needless.
    pub fn keeps(&self, lengths: bool) -> bool {
        self.0.iter().all(|(&class, row)| {
            row.target == row.accepted && (!lengths || class != Class::Shortest || row.length == row.accepted)
        })
    }

    pub fn print(&self) {
        println!("   asked  accepted  target  length");
        for (class, row) in &self.0 {
            println!("  {:6}  {:8}  {:6}  {:6}  {}", row.asked, row.accepted, row.target, row.length, class.words());
        }
        for (class, row) in &self.0 {
            for (what, (count, first)) in &row.misses {
                println!("  {count:6}  {}; {what}: {first}", class.words());
            }
        }
    }
}
