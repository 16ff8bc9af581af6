//! `ask 0`, `ask 1` or `ask 2`, a mode: a listing on standard input, its lines on standard output.
//! `ask record HEX`: one version 1 body in hex; its answer and its line in each mode, and what 000 would
//! do with it if nothing were refused. `ask record 2 HEX`: the same of a version 2 body.

use oracle::{line_into, listing_into, unguarded_line, Record, Sink};
use std::io::{Read, Write};
use std::process::exit;

fn main() {
    std::panic::set_hook(Box::new(|_| {}));
    let words: Vec<String> = std::env::args().skip(1).collect();
    match words.iter().map(String::as_str).collect::<Vec<_>>()[..] {
        ["0"] => list(0),
        ["1"] => list(1),
        ["2"] => list(2),
        ["record", hex] | ["record", "1", hex] => explain_hex(1, hex),
        ["record", "2", hex] => explain_hex(2, hex),
        _ => {
            eprintln!("use: ask 0, ask 1, ask 2 or ask record [1 or 2] HEX");
            exit(2);
        }
    }
}

fn list(mode: u32) {
    let mut listing = Vec::new();
    let mut out = Sink::default();
    std::io::stdin().read_to_end(&mut listing).expect("standard input can be read");
    let outcome = listing_into(&listing, mode, &mut out);
    std::io::stdout().write_all(&out.0).expect("standard output can be written");
    if let Err((complaint, body)) = outcome {
        eprintln!("000 CANNOT PRINT AN ACCEPTED RECORD: {}\nbody {body:02X?}", complaint.0);
        exit(3);
    }
}

fn explain_hex(version: u32, hex: &str) {
    match parse(hex) {
        Some(body) => explain(version, &body),
        None => exit(2),
    }
}

fn explain(version: u32, body: &[u8]) {
    for mode in 0..3 {
        let mut out = Sink::default();
        match line_into(version, body, mode, &mut out) {
            Ok(0) => println!("mode {mode}: {}", String::from_utf8_lossy(&out.0)),
            Ok(answer) => println!("mode {mode}: refused {answer}"),
            Err(complaint) => println!("mode {mode}: 000 CANNOT PRINT IT: {}", complaint.0),
        }
    }
    if let Ok(record) = Record::read(version, body) {
        match unguarded_line(&record) {
            Ok(line) => println!("000 alone: {line}"),
            Err(complaint) => println!("000 alone: panics, {}", complaint.0),
        }
    }
}

fn parse(hex: &str) -> Option<Vec<u8>> {
    let digits: Vec<u8> = hex.bytes().filter(|byte| !byte.is_ascii_whitespace()).collect();
    let pair = |two: &[u8]| u8::from_str_radix(std::str::from_utf8(two).ok()?, 16).ok();
    digits.chunks(2).map(|two| if two.len() == 2 { pair(two) } else { None }).collect()
}
