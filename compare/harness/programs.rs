//! The listing programs. Each runs once over one listing of all records in each version: a thread writes the frames,
//! another reads the lines and holds them to the oracle's as they come.

use crate::batch::{Batch, View};
use crate::difference::Difference;
use std::io::{Read, Write};
use std::process::{ChildStdin, Command, Stdio};
use std::sync::mpsc::{sync_channel, Receiver, SyncSender};
use std::sync::Arc;
use std::thread::JoinHandle;

pub(crate) struct Program {
    feed: Option<SyncSender<Arc<Batch>>>,
    writer: JoinHandle<()>,
    reader: JoinHandle<Result<(), Found>>,
}

/// Where a program's lines first differ.
pub(crate) struct Found {
    pub(crate) difference: Difference,
    /// the batch and the record in it, where the place is in a record's line
    pub(crate) at: Option<(Arc<Batch>, usize)>,
}

/// What the programs are given after the last frame, and what they have to say to it.
const CUT: (&[u8], &[u8]) = (&[0, 20, 1, 2, 3], b"; cut\n");

impl Program {
    pub(crate) fn start(command: &str, view: View) -> Program {
        let mut child = Command::new(command)
            .stdin(Stdio::piped())
            .stdout(Stdio::piped())
            .stderr(Stdio::piped())
            .spawn()
            .unwrap_or_else(|why| panic!("{command} does not start: {why}"));
        let input = child.stdin.take().expect("piped");
        let mut output = child.stdout.take().expect("piped");
        let mut said = child.stderr.take().expect("piped");
        let (feed, frames) = sync_channel::<Arc<Batch>>(4);
        let (told, lines) = sync_channel::<Arc<Batch>>(64);
        let writer = std::thread::spawn(move || write(input, view.version, frames, told));
        let name = name(view);
        let reader = std::thread::spawn(move || {
            let outcome = read(&mut output, lines, view, &name);
            // lets a program go that still has lines to write
            drop(output);
            let mut verdict = String::new();
            let _ = said.read_to_string(&mut verdict);
            let status = child.wait();
            let records = outcome?;
            // the last line on standard error says what came of the run
            let last = verdict.lines().last().unwrap_or_default();
            let counted = last.starts_with(&format!("list: {records} records, "));
            if !counted || !last.contains(" refused; cut at byte ") {
                let expected = format!("list: {records} records, .. refused; cut at byte ..");
                return Err(Found { difference: differs(&name, &expected, last), at: None });
            }
            match status {
                Ok(status) if status.success() => Ok(()),
                other => Err(Found {
                    difference: differs(&name, "an end with status 0", &format!("{other:?}")),
                    at: None,
                }),
            }
        });
        Program { feed: Some(feed), writer, reader }
    }

    /// False where the program or its reader has given up.
    pub(crate) fn push(&self, batch: &Arc<Batch>) -> bool {
        self.feed.as_ref().is_some_and(|feed| feed.send(batch.clone()).is_ok())
    }

    pub(crate) fn finish(mut self) -> Result<(), Found> {
        drop(self.feed.take());
        self.writer.join().expect("the writer does not panic");
        self.reader.join().expect("the reader does not panic")
    }
}

/// What is run, in words.
pub(crate) fn name(view: View) -> String {
    format!("the listing program of mode {}, version {}", view.mode, view.version)
}

fn write(mut input: ChildStdin, version: u32, frames: Receiver<Arc<Batch>>, told: SyncSender<Arc<Batch>>) {
    // a program that dies is noticed by the reader
    if input.write_all(&[version as u8]).is_err() {
        return;
    }
    for batch in frames {
        let bytes = batch.frames(version);
        if told.send(batch).is_err() || input.write_all(&bytes).is_err() {
            return;
        }
    }
    let _ = input.write_all(CUT.0);
}

fn read(
    output: &mut impl Read,
    lines: Receiver<Arc<Batch>>,
    view: View,
    name: &str,
) -> Result<usize, Found> {
    let mut found = Vec::new();
    let mut records = 0;
    for batch in lines {
        let expected = batch.text(view);
        found.resize(expected.len(), 0);
        let whole = fill(output, &mut found);
        if let Some(byte) = (0..expected.len()).find(|&at| at >= whole || found[at] != expected[at]) {
            let at = batch.record_at(view, byte);
            let line = String::from_utf8_lossy(batch.line(view, at)).into_owned();
            let start = byte - (byte - line_start(expected, byte));
            let rest: Vec<u8> =
                found[start..whole.max(start)].iter().copied().take_while(|&b| b != b'\n').collect();
            let mut difference = differs(
                &format!("{name}, record {} of its listing", batch.first + at),
                &format!("{line:?}"),
                &format!("{:?}", String::from_utf8_lossy(&rest)),
            );
            difference.body = Some(batch.body(view.version, at).to_vec());
            return Err(Found { difference, at: Some((batch, at)) });
        }
        records += expected.iter().filter(|&&byte| byte == b'\n').count();
    }
    let mut tail = Vec::new();
    let _ = output.read_to_end(&mut tail);
    if tail != CUT.1 {
        let shown = String::from_utf8_lossy(&tail[..tail.len().min(400)]).into_owned();
        let difference = differs(&format!("{name}, end of its listing"), "\"; cut\\n\"", &format!("{shown:?}"));
        return Err(Found { difference, at: None });
    }
    Ok(records)
}

fn line_start(text: &[u8], byte: usize) -> usize {
    text[..byte].iter().rposition(|&b| b == b'\n').map_or(0, |newline| newline + 1)
}

/// As many bytes as come, up to the buffer's end.
fn fill(from: &mut impl Read, buffer: &mut [u8]) -> usize {
    let mut at = 0;
    while at < buffer.len() {
        match from.read(&mut buffer[at..]) {
            Ok(0) | Err(_) => break,
            Ok(count) => at += count,
        }
    }
    at
}

fn differs(place: &str, expected: &str, found: &str) -> Difference {
    Difference { place: place.into(), body: None, expected: expected.into(), found: found.into() }
}

/// A program's whole output for one small listing.
pub fn run_program(command: &str, listing: &[u8]) -> Vec<u8> {
    let mut child = Command::new(command)
        .stdin(Stdio::piped())
        .stdout(Stdio::piped())
        .stderr(Stdio::null())
        .spawn()
        .unwrap_or_else(|why| panic!("{command} does not start: {why}"));
    let mut input = child.stdin.take().expect("piped");
    let bytes = listing.to_vec();
    let writer = std::thread::spawn(move || {
        let _ = input.write_all(&bytes);
    });
    let mut output = Vec::new();
    child.stdout.take().expect("piped").read_to_end(&mut output).expect("a pipe can be read");
    writer.join().expect("the writer does not panic");
    let status = child.wait().expect("the program ends");
    if !status.success() {
        output.extend_from_slice(format!("<{status}>").as_bytes());
    }
    output
}
