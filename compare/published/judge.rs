//! `judge FOLDER LISTING ASMC AS`: our lines, assembled, and what came out of it. LISTING holds records that
//! the published crate decoded; a few of each opcode and form are taken. ASMC and AS are programs (`-`:
//! none): ASMC FILE.asm leaves FILE.bin, AS FILE.s -o FILE.o an ELF object. The bytes go back through the
//! published crate's decoder, and the record there is held to the record that the line came from:
//! operands and segments; of branches, in both modes, where they go and how long they are. The vector opcodes are asked
//! of AS alone: asmc puts a prefix byte after the first byte of EVEX code. Status 1: asmc gives an
//! accepted mode 1 branch another target, or another length where no byte of the record is needless; or GNU as, which
//! passes over the words, another target.

#[path = "branches.rs"]
mod branches;
#[path = "elf.rs"]
mod elf;
#[path = "record_of.rs"]
mod record_of;

use branches::{edges, target, wraps, Table};
use oracle::{is_branch, line_into, name_of, Record, Sink, OPCODES};
use record_of::record_of;
use std::collections::{BTreeMap, BTreeSet, HashMap};
use std::process::{Command, Stdio};
use yaxpeax_x86::protected_mode::records::fields;
use yaxpeax_x86::protected_mode::InstDecoder;

/// Of records of one opcode with the same kinds, banks, size and prefix words one is taken, and of one
/// opcode so many; beside them wrapped short branches, and memory in another segment than ds.
const OF_AN_OPCODE: usize = 12;
const WRAPPED: usize = 3;
const ELSEWHERE: usize = 4;

/// The first of the vector opcodes.
const VECTOR: u16 = 154;

#[derive(Clone, Copy, PartialEq, Eq, PartialOrd, Ord, Debug)]
enum Judge {
    Asmc,
    As,
}

/// What an assembler made of a line.
enum Read {
    Refused(String),
    /// accepted only after `assume fs:nothing, gs:nothing`
    Assumed(Vec<u8>),
    Bytes(Vec<u8>),
}

fn main() {
    std::panic::set_hook(Box::new(|_| {}));
    let words: Vec<String> = std::env::args().skip(1).collect();
    let [folder, listing, asmc, gas] = &words[..] else {
        eprintln!("use: judge FOLDER LISTING ASMC AS");
        std::process::exit(2);
    };
    let listing = std::fs::read(listing).expect("the listing can be read");
    let sample = sample(&listing);
    let numbers: HashMap<String, u16> =
        (0..OPCODES).map(|number| (name_of(number).to_uppercase(), number)).collect();
    // a line once, with the first record that prints it; branches in both modes, once for each target and length
    let mut asked: Vec<(Record, String)> = Vec::new();
    let mut branches: Vec<Record> = Vec::new();
    let mut seen = BTreeSet::new();
    for record in sample.iter().chain(&edges()) {
        let what = (is_branch(record).then(|| (target(record), record.length)), elsewhere(record));
        if !seen.insert((line(record, 1), what)) {
            continue;
        }
        if is_branch(record) {
            branches.push(*record);
        } else {
            asked.push((*record, line(record, 0)));
        }
    }
    let opcodes: BTreeSet<u16> = sample.iter().map(|record| record.opcode).collect();
    println!("{} records of {} opcodes, {} lines; {} branches in each mode", sample.len(), opcodes.len(), asked.len(), branches.len());
    let mut kept = true;
    for (judge, program) in [(Judge::Asmc, asmc), (Judge::As, gas)] {
        if program == "-" {
            println!("\n{judge:?}: not run");
            continue;
        }
        for (vector, what) in [(false, format!("{judge:?}")), (true, format!("{judge:?}, vector opcodes"))] {
            if vector && judge == Judge::Asmc {
                println!("\n{what}: not asked; asmc puts prefixes after the first byte of EVEX code");
                continue;
            }
            let mut table: BTreeMap<String, Vec<(String, String)>> = BTreeMap::new();
            for (record, line) in asked.iter().filter(|(record, _)| vector == (record.opcode >= VECTOR)) {
                let (verdict, seen) = verdict(judge, folder, program, record, line, &numbers);
                table.entry(verdict).or_default().push((line.clone(), seen));
            }
            print(&what, &table);
        }
        for mode in [0, 1] {
            let mut table = Table::default();
            for record in &branches {
                let line = line(record, mode);
                table.add(record, &line, branch(judge, folder, program, record, &line, &numbers));
            }
            println!("\n{judge:?}, branches in mode {mode}");
            table.print();
            kept &= mode == 0 || table.keeps(judge == Judge::Asmc);
        }
    }
    std::process::exit(if kept { 0 } else { 1 })
}

/// What came of the lines, verdict by verdict, and a few lines of each that are not as the record.
fn print(judge: &str, table: &BTreeMap<String, Vec<(String, String)>>) {
    println!("\n{judge}");
    for (verdict, lines) in table {
        println!("  {:5}  {verdict}", lines.len());
    }
    for (verdict, lines) in table {
        if verdict.starts_with("as the record") {
            continue;
        }
        println!("\n{judge}, {verdict}:");
        let mut names: BTreeMap<&str, usize> = BTreeMap::new();
        let few = verdict.contains("refused, a lone") && lines.len() > 20;
        for (at, (line, seen)) in lines.iter().enumerate() {
            let name = line.split(' ').next().unwrap_or("");
            let before = names.entry(name).or_default();
            *before += 1;
            if if few { at < 5 } else { *before <= 2 } {
                println!("    {line:60} {seen}");
            }
        }
        let names: Vec<String> = names.iter().map(|(name, count)| format!("{name} {count}")).collect();
        println!("  = {}", names.join(", "));
    }
}

/// The line of an accepted record.
fn line(record: &Record, mode: u32) -> String {
    let mut out = Sink::default();
    line_into(1, &record.body(), mode, &mut out).expect("000 prints what document 01 accepts");
    String::from_utf8_lossy(&out.0).into_owned()
}

/// Memory in fs or gs, which no address has by itself.
fn elsewhere(record: &Record) -> bool {
    record.slots[..record.count as usize].iter().any(|slot| slot.is_memory() && slot.segment > 4)
}

fn sample(listing: &[u8]) -> Vec<Record> {
    let mut forms: BTreeSet<(u16, Vec<u8>)> = BTreeSet::new();
    let mut counts: BTreeMap<(u16, bool, bool), usize> = BTreeMap::new();
    let mut taken = Vec::new();
    let mut rest = &listing[1..];
    while let Some((length, behind)) = rest.split_first_chunk::<2>() {
        let (body, behind) = behind.split_at(u16::from_be_bytes(*length) as usize);
        rest = behind;
        let mut out = Sink::default();
        let Ok(record) = Record::read(1, body) else { continue };
        if line_into(1, body, 0, &mut out) != Ok(0) {
            continue;
        }
        let wraps = wraps(&record);
        let elsewhere = elsewhere(&record);
        let most = if wraps { WRAPPED } else if elsewhere { ELSEWHERE } else { OF_AN_OPCODE };
        let mut form = vec![record.mem_size, wraps as u8, record.flags & 31];
        for slot in &record.slots[..record.count as usize] {
            let bank = if slot.is_register() { slot.bank() } else { 0 };
            form.extend([slot.kind, bank, slot.segment / 5]);
        }
        let count = counts.entry((record.opcode, wraps, elsewhere)).or_default();
        if *count < most && forms.insert((record.opcode, form)) {
            *count += 1;
            taken.push(record);
        }
    }
    // the decoder hardly meets the segments that a line drops: one such record for each opcode
    let mut dropped: BTreeMap<u16, Record> = BTreeMap::new();
    for record in &taken {
        let mut there = *record;
        let memory = there.slots.iter_mut().find(|slot| slot.is_memory() && slot.segment == 0 && slot.kind > 10);
        if memory.map(|slot| slot.segment = 5).is_some() && line(&there, 0) == line(record, 0) {
            dropped.entry(record.opcode).or_insert(there);
        }
    }
    taken.extend(dropped.into_values());
    taken.sort_by_key(|record| record.opcode);
    taken
}

/// What a line that is not read as it stands has in common with others.
fn form(line: &str) -> &'static str {
    let word = line.split(' ').next().unwrap_or("");
    let lone = line.split('[').skip(1).any(|inside| inside.split(']').next().is_some_and(|inside| !inside.contains('e') && !inside.contains(' ') && inside.starts_with(|first: char| first.is_ascii_digit())));
    if lone && !line.contains(":[") {
        "a lone number in a bracket, no segment"
    } else if matches!(word, "xacquire" | "xrelease" | "lock" | "rep" | "repne") {
        "a prefix word"
    } else if line.contains(":[") {
        "a segment"
    } else {
        "the name or its operands"
    }
}

fn verdict(
    judge: Judge, folder: &str, program: &str, record: &Record, line: &str, numbers: &HashMap<String, u16>,
) -> (String, String) {
    let (bytes, how) = match assemble(judge, folder, program, line) {
        Read::Refused(why) => return (format!("refused, {}", form(line)), why),
        Read::Assumed(bytes) => (bytes, ", once fs and gs are assumed nothing"),
        Read::Bytes(bytes) => (bytes, ""),
    };
    let (back, text) = match decoded(&bytes, numbers) {
        Ok(read) => read,
        Err(other) => return other,
    };
    let mut out = Sink::default();
    let read = match line_into(1, &back.body(), 1, &mut out) {
        Ok(0) => String::from_utf8_lossy(&out.0).into_owned(),
        _ => text,
    };
    let seen = format!("{} {read}", hex(&bytes));
    if read != line {
        return (format!("another line, {}", form(line)), seen);
    }
    // a segment that stands in the record and neither in the line nor, so, in the bytes
    if elsewhere(record) && !elsewhere(&back) {
        return ("the record's fs or gs is gone".into(), seen);
    }
    (format!("as the record{how}"), seen)
}

/// The record of an assembled branch, or why there is none.
fn branch(
    judge: Judge, folder: &str, program: &str, record: &Record, line: &str, numbers: &HashMap<String, u16>,
) -> Result<Record, String> {
    let bytes = match assemble(judge, folder, program, line) {
        Read::Refused(why) => return Err(why),
        Read::Assumed(bytes) | Read::Bytes(bytes) => bytes,
    };
    match decoded(&bytes, numbers) {
        Ok((back, _)) if is_branch(&back) && back.opcode == record.opcode => Ok(back),
        Ok((_, text)) => Err(format!("another instruction : {} {text}", hex(&bytes))),
        Err((verdict, seen)) => Err(format!("{verdict} : {seen}")),
    }
}

/// The record of one instruction's bytes with the crate's own text of it, or a verdict with what was seen.
fn decoded(bytes: &[u8], numbers: &HashMap<String, u16>) -> Result<(Record, String), (String, String)> {
    let Ok(instruction) = InstDecoder::default().decode_slice(bytes) else {
        return Err(("bytes that the crate does not decode".into(), hex(bytes)));
    };
    let seen = || format!("{} {instruction}", hex(bytes));
    let opcode = numbers.get(&format!("{:?}", instruction.opcode())).copied();
    let Some((opcode, parts)) = opcode.zip(fields(&instruction)) else {
        return Err(("another instruction".into(), seen()));
    };
    if parts.length as usize != bytes.len() {
        return Err(("more than one instruction".into(), seen()));
    }
    Ok((record_of(opcode, &parts), instruction.to_string()))
}

fn hex(bytes: &[u8]) -> String {
    bytes.iter().map(|byte| format!("{byte:02x}")).collect()
}

fn assemble(judge: Judge, folder: &str, program: &str, line: &str) -> Read {
    match judge {
        Judge::Asmc => match asmc(folder, program, "", line) {
            Ok(bytes) => Read::Bytes(bytes),
            Err(why) if line.contains("fs:") || line.contains("gs:") => {
                match asmc(folder, program, "assume fs:nothing, gs:nothing\n", line) {
                    Ok(bytes) => Read::Assumed(bytes),
                    Err(_) => Read::Refused(why),
                }
            }
            Err(why) => Read::Refused(why),
        },
        Judge::As => {
            let (file, object) = (format!("{folder}/line.s"), format!("{folder}/line.o"));
            let _ = std::fs::remove_file(&object);
            std::fs::write(&file, format!(".intel_syntax noprefix\n{}\n", for_as(line))).expect("the folder can be written");
            let said = Command::new(program).args([&file, "-o", &object]).output().expect("as can be started");
            let said = String::from_utf8_lossy(&said.stderr).into_owned() + &String::from_utf8_lossy(&said.stdout);
            let bytes = std::fs::read(&object).ok().and_then(|object| elf::text_section(&object).map(<[u8]>::to_vec));
            bytes.filter(|bytes| !bytes.is_empty()).map_or_else(|| Read::Refused(last(&said)), Read::Bytes)
        }
    }
}

fn asmc(folder: &str, program: &str, head: &str, line: &str) -> Result<Vec<u8>, String> {
    let (file, made) = (format!("{folder}/line.asm"), format!("{folder}/line.bin"));
    let _ = std::fs::remove_file(&made);
    let text = format!(".686p\n.mmx\n.xmm\n.model flat\n{head}.code\n{line}\nend\n");
    std::fs::write(&file, text).expect("the folder can be written");
    let said = Command::new(program).arg("line.asm").current_dir(folder).stdin(Stdio::null()).output().expect("asmc can be started");
    let said = String::from_utf8_lossy(&said.stdout).into_owned() + &String::from_utf8_lossy(&said.stderr);
    match std::fs::read(&made) {
        Ok(bytes) if !bytes.is_empty() => Ok(bytes),
        _ => Err(last(&said)),
    }
}

/// The last line that an assembler said, without the place.
fn last(said: &str) -> String {
    let line = said.lines().rev().find(|line| line.to_lowercase().contains("error")).unwrap_or("no code");
    line.find("rror").map_or(line, |at| &line[at - 1..]).to_string()
}

/// Intel syntax as GNU as reads it: `0ABCDh` is `0xABCD`, `$` is `.`.
fn for_as(line: &str) -> String {
    let mut out = String::new();
    let mut word = String::new();
    for letter in line.chars().chain(['\n']) {
        if letter.is_ascii_alphanumeric() {
            word.push(letter);
            continue;
        }
        match word.strip_suffix('h') {
            Some(digits) if word.starts_with(|first: char| first.is_ascii_digit()) => out += &format!("0x{digits}"),
            _ => out += &word,
        }
        word.clear();
        match letter {
            '$' => out.push('.'),
            '\n' => {}
            _ => out.push(letter),
        }
    }
    out
}
