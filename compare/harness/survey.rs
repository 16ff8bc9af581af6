//! `survey`: what 000 alone does with records that document 01 refuses for shape or size. Where it
//! panics, the refusal stands for the panic; where it prints, document 01 is the stricter, and that
//! is an intended difference. For each case the first record found, smallest first.

use harness::hex;
use oracle::{line_into, name_of, unguarded_line, Record, Sink, Slot, OPCODES};
use std::collections::BTreeMap;

fn main() {
    std::panic::set_hook(Box::new(|_| {}));
    // (answer, what 000 does) -> opcodes, first record, line
    let mut found: BTreeMap<(u8, String), (Vec<u16>, Vec<u8>, String)> = BTreeMap::new();
    for opcode in 0..OPCODES {
        for count in 0..=3 {
            every(count, &mut |slots| {
                for mem_size in [0, 1, 4, 6, 10, 48, 63] {
                    let mut record =
                        Record { opcode, length: 1, mem_size, count: count as u8, ..Record::default() };
                    record.slots[..count].copy_from_slice(slots);
                    let body = record.body();
                    let answer = match line_into(1, &body, 0, &mut Sink::default()) {
                        Ok(answer @ (4 | 5)) => answer,
                        Ok(_) => continue,
                        Err(complaint) => {
                            println!("000 CANNOT PRINT AN ACCEPTED RECORD: {}\n  {}", complaint.0, hex(&body));
                            std::process::exit(1);
                        }
                    };
                    let (what, line) = match unguarded_line(&record) {
                        Ok(line) => (format!("prints ({})", shape(&record)), line),
                        Err(complaint) => (format!("panics: {}", without_digits(&complaint.0)), String::new()),
                    };
                    let case = found.entry((answer, what)).or_insert((Vec::new(), body, line));
                    if case.0.last() != Some(&opcode) {
                        case.0.push(opcode);
                    }
                }
            });
        }
    }
    for ((answer, what), (opcodes, body, line)) in found {
        let names: Vec<&str> = opcodes.iter().map(|&opcode| name_of(opcode)).collect();
        println!("answer {answer}, 000 alone {what}\n  opcodes  {}\n  first    {}", names.join(" "), hex(&body));
        if !line.is_empty() {
            println!("  line     {line}");
        }
    }
}

/// Calls with every choice of so many operands out of a small set.
fn every(count: usize, with: &mut dyn FnMut(&[Slot])) {
    let register = |kind, first| Slot { kind, first, ..Slot::default() };
    let choice = [
        register(1, 0),
        register(2, 8),
        register(2, 27),
        register(1, 32),
        register(2, 32),
        register(2, 47),
        register(3, 0),
        register(11, 0),
        // k1, which only the vector opcodes take
        register(1, 73),
    ];
    let mut slots = vec![choice[0]; count];
    for number in 0..choice.len().pow(count as u32) {
        let mut rest = number;
        for slot in &mut slots {
            *slot = choice[rest % choice.len()];
            rest /= choice.len();
        }
        with(&slots);
    }
}

/// Which of document 01's families the opcode is of; enough to tell the cases apart.
fn shape(record: &Record) -> &'static str {
    match record.opcode {
        65 => "LSL",
        75..=78 => "a table register's operand that is no memory",
        79 | 89 => "operand 1 that is no memory",
        87 | 88 => "operand 0 that is no memory",
        112..=141 => "the FADD arm",
        142..=147 => "the FBLD arm",
        154..=157 => "the VPSCATTER arms",
        _ => "other",
    }
}

/// Panics that differ only in a number are one case.
fn without_digits(text: &str) -> String {
    let text = text.strip_prefix("000 ").unwrap_or(text);
    text.chars().map(|letter| if letter.is_ascii_digit() { '#' } else { letter }).collect()
}
