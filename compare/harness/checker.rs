//! Records go in, one by one, and each gets a body of version 2; what comes out is that all agreed, or the first
//! difference, made small.

use crate::batch::{Batch, View, MODES, RECORDS};
use crate::difference::Difference;
use crate::host::{calls, Call, Expected, Host};
use crate::programs::{name, run_program, Found, Program};
use crate::shrink::shrink;
use crate::{command, hex};
use oracle::{line_into, listing_into, name_of, with_start, Sink, OPCODES, VERSIONS};
use records::Random;
use std::sync::mpsc::{sync_channel, Receiver, SyncSender};
use std::sync::Arc;
use std::thread::JoinHandle;

pub struct Checker {
    batch: Batch,
    host: Option<SyncSender<Arc<Batch>>>,
    checked: JoinHandle<Result<[u64; 8], Difference>>,
    programs: Vec<(View, Program)>,
    commands: Commands,
    /// for the start addresses
    random: Random,
    counts: Counts,
    stopped: bool,
}

/// The commands that the scripts set up.
#[derive(Clone)]
struct Commands {
    host: String,
    /// the listing programs, by mode
    programs: [String; MODES as usize],
}

impl Commands {
    fn found() -> Commands {
        Commands {
            host: command("COMPARE_HOST"),
            programs: ["COMPARE_LIST_CRATE", "COMPARE_LIST_STRAIGHT", "COMPARE_LIST_TARGET"].map(command),
        }
    }

    fn program(&self, mode: u32) -> &str {
        &self.programs[mode as usize]
    }
}

/// What was compared.
#[derive(Clone)]
pub struct Counts {
    pub records: usize,
    /// records by answer (any but 6), by version and mode
    pub answers: [[[u64; 8]; MODES as usize]; 2],
    /// calls of masm_print_record by the answer that came
    pub calls: [u64; 8],
    /// records that were printed, records in all, by opcode number
    pub opcodes: Vec<[u64; 2]>,
}

impl Counts {
    pub fn print(&self, opcodes: bool) {
        println!("records  {}", self.records);
        for View { version, mode } in View::all() {
            let answers = self.answers[version as usize - 1][mode as usize];
            let parts: Vec<String> =
                [0, 1, 2, 3, 4, 5, 7].iter().map(|&answer| format!("{answer}: {}", answers[answer])).collect();
            println!("version {version}, mode {mode}   by answer  {}", parts.join("  "));
        }
        let parts: Vec<String> =
            self.calls.iter().enumerate().map(|(answer, count)| format!("{answer}: {count}")).collect();
        println!("calls of the record entry by answer  {}", parts.join("  "));
        if opcodes {
            println!("opcode name records printed");
            for (number, [printed, all]) in self.opcodes.iter().enumerate() {
                println!("{number} {} {all} {printed}", name_of(number as u16));
            }
        }
    }
}

impl Checker {
    /// Over the commands that the scripts set up. The seed is that of the start addresses.
    pub fn start(seed: u64) -> Checker {
        std::panic::set_hook(Box::new(|_| {}));
        let commands = Commands::found();
        let (host, batches) = sync_channel(4);
        let mut archive = Host::start(&commands.host);
        let checked = std::thread::spawn(move || check(&mut archive, batches));
        Checker {
            batch: Batch::new(0),
            host: Some(host),
            checked,
            programs: View::all().map(|view| (view, Program::start(commands.program(view.mode), view))).collect(),
            commands,
            // not the numbers that the bodies are made of
            random: Random::new(!seed),
            counts: Counts {
                records: 0,
                answers: Default::default(),
                calls: [0; 8],
                opcodes: vec![[0; 2]; OPCODES as usize],
            },
            stopped: false,
        }
    }

    /// A version 1 body, and one of version 2 that is made of it by chance.
    pub fn push(&mut self, body: &[u8]) -> Result<bool, Difference> {
        let located = records::located(&mut self.random, body);
        self.push_both([body, &located])
    }

    /// A body of each version. True as long as more records are of use. A body has to fit a frame.
    pub fn push_both(&mut self, bodies: [&[u8]; 2]) -> Result<bool, Difference> {
        self.batch.push(bodies)?;
        let at = self.batch.len() - 1;
        for view in View::all() {
            let answers = &mut self.counts.answers[view.version as usize - 1][view.mode as usize];
            answers[self.batch.answer(view, at) as usize] += 1;
        }
        if let [high, low, ..] = bodies[0][..] {
            if let Some(counts) = self.counts.opcodes.get_mut(u16::from_be_bytes([high, low]) as usize) {
                counts[0] += (self.batch.answer(View { version: 1, mode: 0 }, at) == 0) as u64;
                counts[1] += 1;
            }
        }
        self.counts.records += 1;
        if self.batch.len() == RECORDS || self.batch.bytes() > 8 << 20 {
            self.send();
        }
        Ok(!self.stopped)
    }

    fn send(&mut self) {
        let batch = std::mem::replace(&mut self.batch, Batch::new(self.counts.records));
        if batch.len() == 0 {
            return;
        }
        let batch = Arc::new(batch);
        let host = self.host.as_ref().is_some_and(|host| host.send(batch.clone()).is_ok());
        let programs = self.programs.iter().all(|(_, program)| program.push(&batch));
        self.stopped |= !(host && programs);
    }

    /// Waits for the consumers and makes the first difference small.
    pub fn finish(mut self) -> Result<Counts, Difference> {
        self.send();
        drop(self.host.take());
        let archive = self.checked.join().expect("the host's thread does not panic");
        let programs: Vec<_> = self.programs.into_iter().map(|(view, program)| (view, program.finish())).collect();
        self.counts.calls = match archive {
            Ok(calls) => calls,
            Err(difference) => return Err(smaller_record(&self.commands.host, difference)),
        };
        for (view, outcome) in programs {
            if let Err(found) = outcome {
                return Err(smaller_listing(self.commands.program(view.mode), view, found));
            }
        }
        small_listings(&self.commands)?;
        Ok(self.counts)
    }
}

/// The host's thread: each batch through the record entry, and as a listing through the other.
fn check(host: &mut Host, batches: Receiver<Arc<Batch>>) -> Result<[u64; 8], Difference> {
    let mut answers = [0; 8];
    for (number, batch) in batches.into_iter().enumerate() {
        check_records(host, &batch, &mut answers)?;
        check_listing(host, &batch, number)?;
    }
    Ok(answers)
}

fn check_records(host: &mut Host, batch: &Batch, counts: &mut [u64; 8]) -> Result<(), Difference> {
    let said = |at| {
        move |view| {
            let answer = batch.answer(view, at);
            (answer, if answer == 0 { batch.line(view, at).len() } else { 0 })
        }
    };
    // each record twice, as a body of either version
    let all: Vec<(u32, usize, Vec<Call>)> = (0..batch.len())
        .flat_map(|at| VERSIONS.map(|version| (version, at, calls(version, batch.first + at, said(at)))))
        .collect();
    let asked = host.send(all.iter().map(|(version, at, calls)| (batch.body(*version, *at), &calls[..])));
    for (version, at, calls) in &all {
        for &call in calls {
            let expected = match call.view() {
                Some(view) => Expected::of(batch.answer(view, *at), batch.line(view, *at), call.room as u64),
                None => Expected::refusal(1),
            };
            let outcome = match asked {
                Ok(()) => host.receive(&expected),
                Err(_) => Err(std::io::ErrorKind::BrokenPipe.into()),
            };
            match outcome {
                Ok(None) => counts[(expected.returned >> 32) as usize] += 1,
                Ok(Some((expected, found))) => {
                    return Err(Difference {
                        place: call.place(),
                        body: Some(batch.body(*version, *at).to_vec()),
                        expected,
                        found,
                    })
                }
                Err(_) => return Err(died(host, batch)),
            }
        }
    }
    Ok(())
}

/// The host died somewhere in a batch: asks record by record where.
fn died(host: &mut Host, batch: &Batch) -> Difference {
    host.restart();
    for (at, version) in (0..batch.len()).flat_map(|at| VERSIONS.map(|version| (at, version))) {
        let body = batch.body(version, at);
        match host.check_record(version, body) {
            Ok(None) => {}
            Ok(Some(difference)) => return difference,
            Err(complaint) => return Difference::complaint(body, &complaint),
        }
    }
    Difference {
        place: format!("masm_print_record, records {} on", batch.first),
        body: None,
        expected: "replies".into(),
        found: "the host died, and does not on any of these records alone".into(),
    }
}

/// A batch as a listing of each version: whole or cut, with exactly enough room, one byte less, none and plenty; and
/// with modes and version bytes that are none.
fn check_listing(host: &mut Host, batch: &Batch, number: usize) -> Result<(), Difference> {
    let cut: &[u8] = [&[][..], &[0], &[0, 14, 0], &[255, 255]][number % 4];
    let what = format!("the records from {} on", batch.first);
    for version in VERSIONS {
        let mut listing = [&[version as u8], &batch.frames(version)[..], cut].concat();
        for mode in 0..MODES {
            let mut text = batch.text(View { version, mode }).to_vec();
            if !cut.is_empty() {
                text.extend_from_slice(b"; cut\n");
            }
            let length = text.len() as u64;
            for room in [length, length - 1, 0, length + 1000] {
                host.check_listing(&what, &listing, mode, room, &Expected::of(0, &text, room))?;
            }
        }
        for mode in [MODES, u32::MAX] {
            host.check_listing(&what, &listing, mode, 100, &Expected::refusal(1))?;
        }
        listing[0] = [0, 3, 4, 255, 129, 130][number % 6];
        let mode = number as u32 % MODES;
        host.check_listing(&what, &listing, mode, 100, &Expected::of(0, b"; version\n", 100))?;
    }
    Ok(())
}

fn smaller_record(command: &str, difference: Difference) -> Difference {
    let Some(body) = difference.body.clone().filter(|_| difference.place.starts_with("masm_print_record"))
    else {
        return difference;
    };
    let named = |version: &u32| difference.place.starts_with(&format!("masm_print_record, version {version},"));
    // a call with a version that is none shows a body of either
    let versions = VERSIONS.into_iter().find(named).map_or(VERSIONS.to_vec(), |version| vec![version]);
    let mut host = Host::start(command);
    let mut last = difference;
    for version in versions {
        shrink(version, body.clone(), |candidate| match host.check_record(version, candidate) {
            Ok(Some(found)) => {
                last = found;
                true
            }
            _ => false,
        });
    }
    last
}

/// A program's difference: by one record alone if that shows it, else by the records before it.
fn smaller_listing(command: &str, view: View, found: Found) -> Difference {
    let View { version, mode } = view;
    let Some((batch, at)) = found.at else {
        return found.difference;
    };
    let mut last = found.difference;
    let framed = |bodies: &[&[u8]]| {
        let mut listing = vec![version as u8];
        for body in bodies {
            listing.extend((body.len() as u16).to_be_bytes());
            listing.extend_from_slice(body);
        }
        listing
    };
    let mut alone = |body: &[u8]| {
        let mut line = Sink::default();
        let text = match line_into(version, body, mode, &mut line) {
            Ok(0) => String::from_utf8_lossy(&line.0).into_owned() + "\n",
            Ok(answer) => format!("; refused {answer}\n"),
            Err(_) => return false,
        };
        let wrote = run_program(command, &framed(&[body]));
        if wrote == text.as_bytes() {
            return false;
        }
        last = Difference {
            place: format!("{}, a listing of this record alone", name(view)),
            body: Some(body.to_vec()),
            expected: format!("{text:?}"),
            found: format!("{:?}", String::from_utf8_lossy(&wrote)),
        };
        true
    };
    if alone(batch.body(version, at)) {
        shrink(version, batch.body(version, at).to_vec(), alone);
        return last;
    }
    // not this record alone: how many before it does it take?
    for before in [1, 4, 16, 64, 256, 1024, 4096] {
        let from = at.saturating_sub(before);
        let bodies: Vec<&[u8]> = (from..=at).map(|at| batch.body(version, at)).collect();
        let listing = framed(&bodies);
        let expected: Vec<u8> =
            (from..=at).flat_map(|at| [batch.line(view, at), b"\n"].concat()).collect();
        if run_program(command, &listing) != expected {
            last.place += &format!("; {} records of this run in a listing show it", bodies.len());
            break;
        }
    }
    last
}

/// A jump as a frame of each version.
const JUMP: [&[u8]; 2] = [
    &[0, 19, 0, 0, 0, 5, 0, 0, 0, 0, 0x7b, 0, 0, 0, 0, 1, 5, 0, 0, 0, 0],
    &[0, 23, 0, 0, 0, 5, 0xff, 0xff, 0xff, 0xfe, 0, 0, 0, 0, 0x7b, 0, 0, 0, 0, 1, 5, 0, 0, 0, 0],
];

/// Listings that are short, empty, cut or of another version.
fn short_listings() -> Vec<Vec<u8>> {
    let mut listings: Vec<Vec<u8>> = vec![vec![]];
    listings.extend((0..=255).map(|version| vec![version]));
    for jump in JUMP {
        for version in [0, 1, 2, 3, 255] {
            listings.push([&[version], jump, jump].concat());
        }
    }
    for (version, jump) in [1, 2].into_iter().zip(JUMP) {
        for end in [&[0][..], &[0, 0], &[0, 1], &[0, 1, 7], &[0, 7, 0, 0, 0, 5, 0, 0, 0], &[255, 255]] {
            listings.push([&[version], end].concat());
        }
        // every cut of one record, and of one between two
        for kept in 0..jump.len() {
            listings.push([&[version], &jump[..kept]].concat());
            listings.push([&[version], jump, &jump[..kept]].concat());
        }
    }
    listings
}

/// Frames around the longest right bodies and around the longest that there are, which programs may count and not
/// hold: filled with zeros, and with as many operands as a body can say. A jump stands after each of them, and a cut
/// long frame at the end.
fn long_listings() -> Vec<Vec<u8>> {
    let mut masked = vec![0; 14];
    masked[1] = 154;
    masked[3] = 1;
    masked[13] = 255;
    masked.extend([17, 0, 0, 0, 0, 73].repeat(255));
    let mut listings = Vec::new();
    for (version, jump) in [1, 2].into_iter().zip(JUMP) {
        let mut listing = vec![version];
        let mut head = if version == 1 { masked.clone() } else { with_start(&masked, 0xffff_fff0) };
        head.resize(65_535, 0);
        for length in (1543..1556).chain([2000, 4096, 32_767, 32_768, 65_534, 65_535]) {
            for from in [&head, &vec![0; length]] {
                listing.extend((length as u16).to_be_bytes());
                listing.extend_from_slice(&from[..length]);
                listing.extend_from_slice(jump);
            }
        }
        for end in [&[][..], &[255, 255, 1], &[6, 10], &[6, 15, 0]] {
            listings.push([&listing, end].concat());
        }
    }
    listings
}

/// These through the entry and the programs, in every mode.
fn small_listings(commands: &Commands) -> Result<(), Difference> {
    let mut host = Host::start(&commands.host);
    for listing in short_listings().into_iter().chain(long_listings()) {
        let what = match listing.len() {
            0..=200 => format!("the bytes {}", hex(&listing)),
            length => format!("{length} bytes of long frames, starting {}", hex(&listing[..20])),
        };
        for mode in 0..MODES {
            let mut text = Sink::default();
            listing_into(&listing, mode, &mut text)
                .map_err(|(complaint, body)| Difference::complaint(&body, &complaint))?;
            let length = text.0.len() as u64;
            for room in [length, length.saturating_sub(1), 0, length + 40] {
                host.check_listing(&what, &listing, mode, room, &Expected::of(0, &text.0, room))?;
            }
            // the programs need not start anew for each unknown version
            if let [4..=254] = listing[..] {
                continue;
            }
            let wrote = run_program(commands.program(mode), &listing);
            if wrote != text.0 {
                return Err(Difference {
                    place: format!("the listing program of mode {mode}, {what}"),
                    body: None,
                    expected: format!("{:?}", String::from_utf8_lossy(&text.0)),
                    found: format!("{:?}", String::from_utf8_lossy(&wrote)),
                });
            }
        }
        for mode in [MODES, u32::MAX] {
            host.check_listing(&what, &listing, mode, 100, &Expected::refusal(1))?;
        }
    }
    Ok(())
}
