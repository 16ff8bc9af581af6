//! `pairs COUNT SEED FOLDER`: so many random pairs of listings through the program that compares two, against the
//! oracle, in the three modes: every byte of its report, and its last line on standard error. The pairs are written to
//! FOLDER, where the last one stays.
//!
//! A pair is a listing and a copy of it, of either version each, with records changed, lost, doubled, put in or
//! exchanged on either side, and now and then bytes cut off, added or changed. Some are of thousands of records or
//! have the longest bodies, so that the program has to read on in the midst of both. Of one pair in four a side comes
//! through a pipe, in parts of any size.

use harness::{command, Difference};
use oracle::{comparison_into, Sink};
use records::Random;
use std::io::Write;
use std::process::{Command, Output, Stdio};

fn main() {
    let words: Vec<String> = std::env::args().skip(1).collect();
    let number = |at: usize| words.get(at).and_then(|word| word.parse::<u64>().ok());
    let (Some(count), Some(seed), Some(folder)) = (number(0), number(1), words.get(2)) else {
        eprintln!("use: pairs COUNT SEED FOLDER");
        std::process::exit(2);
    };
    std::panic::set_hook(Box::new(|_| {}));
    match run(count, seed, folder) {
        Ok(said) => {
            let parts: Vec<String> = KINDS.iter().zip(said).map(|(kind, count)| format!("{count} \"{kind}\"")).collect();
            println!("{}", parts.join(", "));
            println!("{count} pairs, no difference");
        }
        Err(difference) => {
            difference.print();
            std::process::exit(1)
        }
    }
}

/// How the lines end that a report is made of, so that a run shows that it had them all.
const KINDS: [&str; 9] = [
    "differs",
    "same line",
    "only in the first",
    "only in the second",
    "first: ; cut",
    "second: ; cut",
    "; version",
    "; refused 1",
    "differing records: 0",
];

fn run(count: u64, seed: u64, folder: &str) -> Result<[u64; 9], Difference> {
    let program = command("COMPARE_LISTINGS");
    let files = ["first.lst", "second.lst"].map(|name| format!("{folder}/{name}"));
    let mut random = Random::new(seed);
    let mut said = [0; 9];
    for number in 0..count {
        let listings = pair(&mut random);
        let mode = random.below(3);
        let mut text = Sink::default();
        let same = comparison_into(&listings[0], &listings[1], mode as u32, &mut text)
            .map_err(|(complaint, body)| Difference::complaint(&body, &complaint))?;
        let report = String::from_utf8(text.0).expect("lines are letters");
        for (file, listing) in files.iter().zip(&listings) {
            std::fs::write(file, listing).unwrap_or_else(|why| trouble(&format!("{file} cannot be written: {why}")));
        }
        let mut words = [["crate", "straight", "target"][mode], &files[0], &files[1]];
        let mut input = Vec::new();
        if random.chance(1, 4) {
            let side = random.below(2);
            words[1 + side] = "/dev/stdin";
            input = parts(&mut random, &listings[side]);
        }
        let done = run_program(&program, &words, input)
            .unwrap_or_else(|why| trouble(&format!("{program} does not start: {why}")));
        let differs = |what: &str, expected: String, found: String| Difference {
            place: format!("pair {number}, called with {}: {what}", words.join(" ")),
            body: None,
            expected,
            found,
        };
        let wrote = String::from_utf8_lossy(&done.stdout);
        if wrote != report {
            let (line, expected, found) = first_difference(&report, &wrote);
            return Err(differs(&format!("line {line} of the report"), expected, found));
        }
        let errors = String::from_utf8_lossy(&done.stderr);
        let last = errors.lines().last().unwrap_or_default();
        let expected = format!("compare-listings: {}", if same { "same" } else { "different" });
        if last != expected {
            return Err(differs("the last line on standard error", expected, last.into()));
        }
        if !done.status.success() {
            return Err(differs("its end", "status 0".into(), done.status.to_string()));
        }
        for line in report.lines() {
            for (kind, count) in KINDS.iter().zip(&mut said) {
                *count += line.ends_with(kind) as u64;
            }
        }
    }
    Ok(said)
}

/// A listing in parts of any size, mostly all small or all large.
fn parts(random: &mut Random, listing: &[u8]) -> Vec<Vec<u8>> {
    let most = random.pick(&[3, 40, 5_000, 70_000]);
    let mut parts = Vec::new();
    let mut rest = listing;
    while !rest.is_empty() {
        let (part, after) = rest.split_at(rest.len().min(1 + random.below(most)));
        parts.push(part.to_vec());
        rest = after;
    }
    parts
}

/// The program with these words, and these parts as its standard input, one write each.
fn run_program(program: &str, words: &[&str], input: Vec<Vec<u8>>) -> std::io::Result<Output> {
    let mut child =
        Command::new(program).args(words).stdin(Stdio::piped()).stdout(Stdio::piped()).stderr(Stdio::piped()).spawn()?;
    let mut to = child.stdin.take().expect("piped");
    let writer = std::thread::spawn(move || {
        // a program that has seen enough reads no more
        let _ = input.iter().try_for_each(|part| to.write_all(part));
    });
    let done = child.wait_with_output();
    writer.join().expect("the writer does not panic");
    done
}

fn trouble(words: &str) -> ! {
    eprintln!("pairs: {words}");
    std::process::exit(2)
}

/// The number of the first line that differs, from 1, and the line on either side.
fn first_difference(expected: &str, found: &str) -> (usize, String, String) {
    let (mut ours, mut theirs) = (expected.split('\n'), found.split('\n'));
    for number in 1.. {
        let lines = (ours.next(), theirs.next());
        if lines.0 != lines.1 {
            let shown = |line: Option<&str>| line.map_or("nothing".into(), |line| format!("{line:?}"));
            return (number, shown(lines.0), shown(lines.1));
        }
    }
    unreachable!("two texts that are not the same differ in a line")
}

fn pair(random: &mut Random) -> [Vec<u8>; 2] {
    let count = match random.below(400) {
        0 => 4000 + random.below(4000),
        1..=19 => random.below(300),
        _ => random.below(9),
    };
    let mut bodies: Vec<Vec<u8>> = (0..count).map(|_| records::body(random)).collect();
    if random.chance(1, 100) {
        for _ in 0..1 + random.below(3) {
            bodies.push(vec![0; 65_535 - random.pick(&[0, 0, 1, 30_000])]);
        }
    }
    let versions = random.pick(&[[1, 1], [1, 2], [2, 1], [2, 2], [2, 2]]);
    let mut sides = sides_of(random, versions, bodies);
    if random.chance(7, 8) {
        for _ in 0..1 + random.below(3) {
            let side = random.below(2);
            change(random, versions[side], &mut sides[side]);
        }
    }
    let mut listings = [framed(versions[0], &sides[0]), framed(versions[1], &sides[1])];
    for listing in &mut listings {
        if random.chance(1, 5) {
            damage(random, listing);
        }
    }
    listings
}

/// The records of both sides. Where the versions differ, half of the pairs have the same bytes on both sides, which are
/// the same records to the program, and half have the same fields, which are not.
fn sides_of(random: &mut Random, versions: [u8; 2], bodies: Vec<Vec<u8>>) -> [Vec<Vec<u8>>; 2] {
    let located: Vec<Vec<u8>> = bodies.iter().map(|body| records::located(random, body)).collect();
    if versions[0] != versions[1] && random.chance(1, 2) {
        let same = if random.chance(1, 2) { bodies } else { located };
        return [same.clone(), same];
    }
    versions.map(|version| if version == 1 { bodies.clone() } else { located.clone() })
}

/// A body of a version that is not on the other side.
fn other_body(random: &mut Random, version: u8) -> Vec<u8> {
    let body = records::body(random);
    if version == 1 {
        body
    } else {
        records::located(random, &body)
    }
}

/// One change to the records of a side.
fn change(random: &mut Random, version: u8, bodies: &mut Vec<Vec<u8>>) {
    let place = random.below(bodies.len() + 1);
    let Some(body) = bodies.get_mut(place) else {
        // after the last record
        bodies.push(other_body(random, version));
        return;
    };
    match random.below(9) {
        0 if !body.is_empty() => {
            let at = random.below(body.len());
            body[at] ^= 1 << random.below(8);
        }
        1 if !body.is_empty() => *body.last_mut().expect("not empty") ^= 1,
        // length, start address, imm and disp, of which few lines show all
        2 | 3 if body.len() >= 18 => {
            let at = if version == 1 {
                random.pick(&[3, 5, 6, 7, 8, 9, 10, 11, 12])
            } else {
                random.pick(&[3, 4, 5, 6, 7, 9, 10, 11, 12, 13, 14, 15, 16])
            };
            body[at] = random.byte();
        }
        4 => {
            bodies.remove(place);
        }
        5 => bodies.insert(place, bodies[place].clone()),
        6 => bodies.insert(place, other_body(random, version)),
        7 => {
            let other = random.below(bodies.len());
            bodies.swap(place, other);
        }
        _ => bodies.truncate(place),
    }
}

fn framed(version: u8, bodies: &[Vec<u8>]) -> Vec<u8> {
    let mut listing = vec![version];
    for body in bodies {
        listing.extend((body.len() as u16).to_be_bytes());
        listing.extend_from_slice(body);
    }
    listing
}

/// One change to the bytes of a side, which may move all its frames.
fn damage(random: &mut Random, listing: &mut Vec<u8>) {
    match random.below(8) {
        0 => listing.clear(),
        1 => listing.truncate(1),
        2 => listing[0] = random.pick(&[0, 1, 2, 3, 255]),
        3 => {
            let added = 1 + random.below(4);
            listing.extend((0..added).map(|_| random.byte()));
        }
        4 => {
            let at = random.below(listing.len());
            listing[at] ^= 1 << random.below(8);
        }
        _ => listing.truncate(random.below(listing.len())),
    }
}
