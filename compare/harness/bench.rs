//! `bench FOLDER`: times printers on one listing and writes FOLDER/bench.txt and FOLDER/bench.svg.
//!
//! The hosts come in the variable BENCH_HOSTS, one to a line: a label, a tab, a command. Each is the
//! C host (`host/driver.c`) over one printer, so all are timed by the same code: one call prints the
//! whole listing from memory to memory, with room to spare and with exactly the room that the text needs
//! (then the printer measures first); or a call prints each record. The programs come in BENCH_PROGRAMS
//! in the same way and are timed as processes, from a file to nowhere. So do the programs that compare
//! two listings, in BENCH_COMPARERS; they get the listing and a copy of it. The same records as a listing
//! of version 2 are printed in mode 2 by the hosts that know it, by one call with room to spare, and by
//! the programs in BENCH_TARGETS. BENCH_ZYDIS is `timing/zydis.c`'s program, or empty; it times itself.
//! Times are processor time, so that what else runs on the machine counts as little as can be.

mod chart;
mod mix;

use chart::Row;
use harness::{command, run_program, Expected, Host, Timed};
use oracle::{listing_into, Sink};
use std::fs::File;
use std::process::{Command, Stdio};

const RECORDS: usize = 200_000;
const SEED: u64 = 1;
const ROUNDS: u32 = 21;
/// All rows are timed so often, one after the other, so that no row has all its rounds at a bad time.
const PASSES: usize = 3;
/// more than the longest line
const RECORD_ROOM: u64 = 512;

/// What is printed: a listing, the mode, the lines, and the file that has the listing.
struct Task {
    listing: Vec<u8>,
    mode: u32,
    text: Vec<u8>,
    file: String,
}

impl Task {
    fn of(version: u32, mode: u32, file: String) -> Task {
        let listing = mix::listing(version, RECORDS, SEED);
        let mut text = Sink::default();
        listing_into(&listing, mode, &mut text).expect("000 prints what document 01 accepts");
        std::fs::write(&file, &listing).expect("the folder can be written");
        let (bytes, out) = (listing.len(), text.0.len());
        println!("version {version}, mode {mode}: {RECORDS} records, {bytes} bytes in, {out} bytes out");
        Task { listing, mode, text: text.0, file }
    }

    /// Room for 321 bytes a record and for nine times the listing, so that no printer measures first.
    fn ample(&self) -> usize {
        (321 * RECORDS).max(9 * self.listing.len())
    }
}

fn main() {
    let folder = std::env::args().nth(1).expect("use: bench FOLDER");
    let plain = Task::of(1, 0, format!("{folder}/listing"));
    let targets = Task::of(2, 2, format!("{folder}/listing-2"));
    std::fs::write(copy_of(&plain.file), &plain.listing).expect("the folder can be written");
    println!("{PASSES} times {ROUNDS} rounds");
    let mut rows: Vec<Row> = Vec::new();
    for pass in 0..PASSES {
        for (at, row) in one_pass(&plain, &targets).into_iter().enumerate() {
            if pass == 0 {
                rows.push(row);
            } else {
                rows[at].more(row);
            }
        }
    }
    let table = chart::table(&rows);
    print!("{table}");
    std::fs::write(format!("{folder}/bench.txt"), table).expect("the folder can be written");
    std::fs::write(format!("{folder}/bench.svg"), chart::svg(&rows)).expect("the folder can be written");
}

/// Each row once.
fn one_pass(plain: &Task, targets: &Task) -> Vec<Row> {
    let mut rows = Vec::new();
    let hosts = pairs("BENCH_HOSTS");
    for (label, command) in &hosts {
        rows.push(time_host(label, command, plain, plain.ample()));
    }
    let measured = |label: &str| label.starts_with("the archive") || label == "direct Rust";
    let measured: Vec<_> = hosts.iter().filter(|(label, _)| measured(label)).collect();
    for (label, command) in &measured {
        rows.push(time_host(&format!("{label}, no room to spare"), command, plain, plain.text.len()));
    }
    for (words, room) in [("a record a call", RECORD_ROOM), ("a record a call, no room to spare", 0)] {
        for (label, command) in &measured {
            rows.push(time_records(&format!("{label}, {words}"), command, plain, room));
        }
    }
    for (label, command) in hosts.iter().filter(|(_, command)| knows_targets(command)) {
        rows.push(time_host(&format!("{label}, version 2 in mode 2"), command, targets, targets.ample()));
    }
    rows.extend(time_zydis(&command("BENCH_ZYDIS"), &plain.file));
    for (variable, task) in [("BENCH_PROGRAMS", plain), ("BENCH_TARGETS", targets)] {
        for (label, command) in pairs(variable) {
            rows.push(time_program(&label, &command, task));
        }
    }
    for (label, command) in pairs("BENCH_COMPARERS") {
        rows.push(time_comparer(&label, &command, &plain.file));
    }
    rows
}

fn copy_of(input: &str) -> String {
    format!("{input}.copy")
}

fn pairs(variable: &str) -> Vec<(String, String)> {
    let words = command(variable);
    let pair = |line: &str| line.split_once('\t').map(|(a, b)| (a.to_string(), b.to_string()));
    words.lines().filter_map(pair).collect()
}

/// Whether a host prints version 2 in mode 2: one of an earlier state, set beside this one, does not.
fn knows_targets(command: &str) -> bool {
    let nothing = Expected::of(0, b"", 0);
    Host::start(command).check_listing("version 2 in mode 2", &[2], 2, 0, &nothing).is_ok()
}

/// A printer that differs is not worth timing.
fn time_host(label: &str, command: &str, task: &Task, room: usize) -> Row {
    let mut host = Host::start(command);
    let room = room as u64;
    let expected = Expected::of(0, &task.text, room);
    if let Err(difference) = host.check_listing("the mix", &task.listing, task.mode, room, &expected) {
        difference.print();
        std::process::exit(1);
    }
    let rounds = host.time(Timed::Listing, &task.listing, task.mode, room, ROUNDS).expect("the host lives");
    Row::new(label, rounds.iter().map(|&(_, took)| took as f64 / RECORDS as f64).collect())
}

/// Each record by a call of its own. All lines are counted, without the newlines.
fn time_records(label: &str, command: &str, task: &Task, room: u64) -> Row {
    let rounds = Host::start(command).time(Timed::Records, &task.listing, task.mode, room, ROUNDS).expect("the host lives");
    let printed = task.text.len() - RECORDS;
    assert!(rounds.iter().all(|&(bytes, _)| bytes == printed as u64), "{label}: lines are lost");
    Row::new(label, rounds.iter().map(|&(_, took)| took as f64 / RECORDS as f64).collect())
}

/// Zydis prints in its own words, so its text is only held to have a line for each record.
fn time_zydis(command: &str, input: &str) -> Vec<Row> {
    if command.is_empty() {
        return Vec::new();
    }
    let run = |rounds: u32| {
        let output = Command::new(command).args([input, &rounds.to_string()]).output().expect("Zydis's program starts");
        assert!(output.status.success(), "{command}: {}", String::from_utf8_lossy(&output.stderr));
        String::from_utf8(output.stdout).expect("Zydis writes ASCII")
    };
    assert_eq!(run(0).lines().count(), RECORDS, "Zydis drops or adds lines");
    let row = |line: &str| {
        let start = line.find(|c: char| c.is_ascii_digit()).expect("each line has times");
        let times = line[start..].split(' ').map(|took| took.parse::<f64>().expect("a time is a number") / RECORDS as f64);
        Row::new(&format!("Zydis, {}", line[..start].trim_end()), times.collect())
    };
    run(ROUNDS).lines().map(row).collect()
}

fn time_program(label: &str, command: &str, task: &Task) -> Row {
    let wrote = run_program(command, &task.listing);
    // the straight program's text differs in its branches, but has as many lines
    let lines = |text: &[u8]| text.iter().filter(|&&byte| byte == b'\n').count();
    assert_eq!(lines(&wrote), lines(&task.text), "{command} drops or adds lines");
    time_process(label, command, |process| {
        process.stdin(File::open(&task.file).expect("the listing is there"));
    })
}

/// Two equal listings: every record is compared, and no line is printed.
fn time_comparer(label: &str, command: &str, input: &str) -> Row {
    let words = ["crate", input, &copy_of(input)];
    let output = Command::new(command).args(words).output().expect("the program starts");
    assert_eq!(String::from_utf8_lossy(&output.stdout), "differing records: 0\n", "{command} finds differences");
    time_process(label, command, |process| {
        process.args(words);
    })
}

fn time_process(label: &str, command: &str, prepare: impl Fn(&mut Command)) -> Row {
    let rounds = (0..ROUNDS.min(9)).map(|_| {
        let mut process = Command::new(command);
        prepare(&mut process);
        let start = children_used();
        let status = process.stdout(Stdio::null()).stderr(Stdio::null()).status().expect("the program starts");
        assert!(status.success(), "{command} ends with {status}");
        (children_used() - start) as f64 / RECORDS as f64
    });
    Row::new(label, rounds.collect())
}

/// Nanoseconds of processor time that ended children took, for themselves and in the system.
fn children_used() -> i64 {
    extern "C" {
        fn getrusage(who: i32, usage: *mut [i64; 18]) -> i32;
    }
    const CHILDREN: i32 = -1;
    let mut usage = [0; 18];
    // SAFETY: Linux's struct on 64 bits is 18 words, of which the first four are two times in seconds
    // and microseconds
    let status = unsafe { getrusage(CHILDREN, &mut usage) };
    assert_eq!(status, 0, "getrusage works");
    (usage[0] + usage[2]) * 1_000_000_000 + (usage[1] + usage[3]) * 1_000
}
