//! Speaks to the C host (`host/driver.c`): sends calls, reads what they did.

use crate::batch::{View, MODES};
use crate::difference::Difference;
use oracle::{line_into, Complaint, Sink};
use std::io::{BufReader, Read, Write};
use std::process::{Child, ChildStdin, ChildStdout, Command, Stdio};

/// What the C host times, by the letter that asks for it.
#[derive(Clone, Copy)]
pub enum Timed {
    /// the listing entry, one call
    Listing = b'b' as isize,
    /// the record entry, a call for each record of a listing; a room of 0 is exactly what the record needs
    Records = b'e' as isize,
}

pub struct Host {
    command: String,
    child: Child,
    input: Option<ChildStdin>,
    output: BufReader<ChildStdout>,
}

/// What a call has to do: the number it returns, and the bytes it writes.
#[derive(Clone, Debug, PartialEq, Eq)]
pub struct Expected {
    pub returned: u64,
    pub text: Vec<u8>,
}

/// What a call did. `marks` is 0 where no byte changed that had to stay.
#[derive(Debug)]
pub struct Done {
    returned: u64,
    marks: u32,
    text: Vec<u8>,
}

/// One call on a record's body.
#[derive(Clone, Copy, Debug)]
pub(crate) struct Call {
    pub(crate) version: u32,
    pub(crate) mode: u32,
    pub(crate) room: u32,
}

/// More room than any line takes.
const AMPLE: u32 = 400;

impl Call {
    /// The view whose answer and line the call has to give, if there is one: all others are answered with 1.
    pub(crate) fn view(self) -> Option<View> {
        let Call { version, mode, .. } = self;
        View::all().find(|&view| view == View { version, mode })
    }

    pub(crate) fn place(self) -> String {
        format!("masm_print_record, version {}, mode {}, room {}", self.version, self.mode, self.room)
    }
}

impl Expected {
    /// Document 01's table, from the answer (any but 6) and the line that the oracle gives.
    pub fn of(answer: u8, line: &[u8], room: u64) -> Expected {
        let (answer, length, text): (u64, usize, &[u8]) = match answer {
            0 if line.len() as u64 <= room => (0, line.len(), line),
            0 => (6, line.len(), &[]),
            refused => (refused as u64, 0, &[]),
        };
        Expected { returned: answer << 32 | length as u64, text: text.to_vec() }
    }

    /// An answer that writes nothing and has no length.
    pub fn refusal(answer: u8) -> Expected {
        Expected::of(answer, &[], 0)
    }

    fn tell(&self) -> String {
        tell(self.returned, &self.text)
    }
}

fn tell(returned: u64, text: &[u8]) -> String {
    let shown: String = String::from_utf8_lossy(&text[..text.len().min(400)]).into_owned();
    format!("answer {}, length {}, text {:?}", returned >> 32, returned as u32, shown)
}

impl Done {
    fn tell(&self) -> String {
        let mut said = tell(self.returned, &self.text);
        for (mark, what) in [
            (1, "a byte in front of the buffer changed"),
            (2, "a byte behind the buffer changed"),
            (4, "a byte of the buffer changed that had to stay"),
        ] {
            if self.marks & mark != 0 {
                said.push_str("; ");
                said.push_str(what);
            }
        }
        said
    }

    fn agrees(&self, expected: &Expected) -> bool {
        self.returned == expected.returned && self.marks == 0 && self.text == expected.text
    }
}

/// Versions and modes that are none, each with one that is, and two that are none at once.
const STRANGERS: [(u32, u32); 9] =
    [(0, 0), (0, 2), (3, 1), (3, 2), (u32::MAX, 0), (1, MODES), (2, MODES), (2, u32::MAX), (257, u32::MAX)];

/// The calls that a record's body of a version is put through in every mode, and now and then beyond them. `said` gives
/// the oracle's answer in a view, and the length of the line if it is printed.
pub(crate) fn calls(version: u32, number: usize, said: impl Fn(View) -> (u8, usize)) -> Vec<Call> {
    let mut calls = Vec::with_capacity(12);
    for mode in 0..MODES {
        let (answer, length) = said(View { version, mode });
        let call = |room| Call { version, mode, room };
        calls.extend([call(AMPLE), call(0)]);
        if answer == 0 {
            // exactly enough, and one byte less
            calls.extend([call(length as u32), call(length as u32 - 1)]);
        }
    }
    if number % 8 == 0 {
        for (k, (version, mode)) in STRANGERS.into_iter().enumerate() {
            let room = if k % 2 == 0 { AMPLE } else { (number % 3) as u32 };
            calls.push(Call { version, mode, room });
        }
    }
    calls
}

impl Host {
    pub fn start(command: &str) -> Host {
        let mut child = Command::new(command)
            .stdin(Stdio::piped())
            .stdout(Stdio::piped())
            .spawn()
            .unwrap_or_else(|why| panic!("{command} does not start: {why}"));
        let input = child.stdin.take();
        let output = BufReader::with_capacity(1 << 16, child.stdout.take().expect("piped"));
        Host { command: command.into(), child, input, output }
    }

    /// Starts anew after the host has died.
    pub(crate) fn restart(&mut self) {
        let _ = self.child.kill();
        let _ = self.child.wait();
        *self = Host::start(&self.command.clone());
    }

    fn ask(&mut self, letter: u8, payload: &[&[u8]]) -> std::io::Result<()> {
        let input = self.input.as_mut().expect("open until the host is dropped");
        let count: usize = payload.iter().map(|part| part.len()).sum();
        input.write_all(&[letter])?;
        input.write_all(&(count as u64).to_le_bytes())?;
        for part in payload {
            input.write_all(part)?;
        }
        input.flush()
    }

    fn number<const N: usize>(&mut self) -> std::io::Result<[u8; N]> {
        let mut bytes = [0; N];
        self.output.read_exact(&mut bytes)?;
        Ok(bytes)
    }

    fn done(&mut self) -> std::io::Result<Done> {
        let returned = u64::from_le_bytes(self.number()?);
        let marks = u32::from_le_bytes(self.number()?);
        let mut text = vec![0; u32::from_le_bytes(self.number()?) as usize];
        self.output.read_exact(&mut text)?;
        Ok(Done { returned, marks, text })
    }

    /// Sends records with their calls, all at once; the replies then come in order.
    pub(crate) fn send<'a>(
        &mut self,
        records: impl Iterator<Item = (&'a [u8], &'a [Call])>,
    ) -> std::io::Result<()> {
        let mut payload = Vec::new();
        for (body, calls) in records {
            payload.extend((body.len() as u32).to_le_bytes());
            payload.extend((calls.len() as u32).to_le_bytes());
            payload.extend_from_slice(body);
            for call in calls {
                payload.extend(call.version.to_le_bytes());
                payload.extend(call.mode.to_le_bytes());
                payload.extend(call.room.to_le_bytes());
            }
        }
        self.ask(b'r', &[&payload])
    }

    /// The next reply, held to what was expected: nothing, or both sides in words.
    pub(crate) fn receive(
        &mut self,
        expected: &Expected,
    ) -> std::io::Result<Option<(String, String)>> {
        let done = self.done()?;
        Ok((!done.agrees(expected)).then(|| (expected.tell(), done.tell())))
    }

    /// One record through all its calls, from the oracle's answers to the difference. A host that
    /// dies on it is a difference too.
    pub fn check_record(&mut self, version: u32, body: &[u8]) -> Result<Option<Difference>, Complaint> {
        let mut outcomes = Vec::new();
        for mode in 0..MODES {
            let mut line = Sink::default();
            outcomes.push((line_into(version, body, mode, &mut line)?, line.0));
        }
        let said = |view: View| {
            let (answer, line) = &outcomes[view.mode as usize];
            (*answer, line.len())
        };
        // number 0 asks for the other versions and modes too
        let calls = calls(version, 0, said);
        let differs = |call: Call, expected, found| Difference {
            place: call.place(),
            body: Some(body.to_vec()),
            expected,
            found,
        };
        let asked = self.send(std::iter::once((body, &calls[..])));
        for &call in &calls {
            let expected = match call.view() {
                Some(view) => {
                    let (answer, line) = &outcomes[view.mode as usize];
                    Expected::of(*answer, line, call.room as u64)
                }
                None => Expected::refusal(1),
            };
            let outcome = match &asked {
                Ok(()) => self.receive(&expected),
                Err(_) => Err(std::io::ErrorKind::BrokenPipe.into()),
            };
            match outcome {
                Ok(None) => {}
                Ok(Some((expected, found))) => {
                    // replies of the other calls are still to come
                    self.restart();
                    return Ok(Some(differs(call, expected, found)));
                }
                Err(_) => {
                    self.restart();
                    return Ok(Some(differs(call, expected.tell(), "the host died".into())));
                }
            }
        }
        Ok(None)
    }

    /// One call of the listing entry, held to what was expected.
    pub fn check_listing(
        &mut self,
        what: &str,
        listing: &[u8],
        mode: u32,
        room: u64,
        expected: &Expected,
    ) -> Result<(), Difference> {
        let head = [&mode.to_le_bytes()[..], &room.to_le_bytes()].concat();
        let differs = |expected: String, found: String| Difference {
            place: format!("masm_print_listing of {what}, mode {mode}, room {room}"),
            body: None,
            expected,
            found,
        };
        match self.ask(b'l', &[&head, listing]).and_then(|()| self.done()) {
            Ok(done) if done.agrees(expected) => Ok(()),
            Ok(done) => {
                let at = done.text.iter().zip(&expected.text).position(|(a, b)| a != b);
                let (mut wanted, mut found) = (expected.tell(), done.tell());
                if let Some(at) = at {
                    let around = |text: &[u8]| {
                        let end = text.len().min(at + 80);
                        String::from_utf8_lossy(&text[at.saturating_sub(80)..end]).into_owned()
                    };
                    wanted = format!("at byte {at}: {:?}", around(&expected.text));
                    found = format!("{:?}", around(&done.text));
                } else if wanted.len() > 300 {
                    let short = |returned: u64, bytes: usize| {
                        format!("answer {}, length {}, {bytes} bytes of text", returned >> 32, returned as u32)
                    };
                    wanted = short(expected.returned, expected.text.len());
                    found = format!("{}, marks {}", short(done.returned, done.text.len()), done.marks);
                }
                Err(differs(wanted, found))
            }
            Err(_) => {
                self.restart();
                Err(differs(expected.tell(), "the host died".into()))
            }
        }
    }

    /// Times an entry: what the rounds returned, or the bytes that they printed, and the nanoseconds of each.
    pub fn time(
        &mut self,
        entry: Timed,
        listing: &[u8],
        mode: u32,
        room: u64,
        rounds: u32,
    ) -> std::io::Result<Vec<(u64, u64)>> {
        let head = [&rounds.to_le_bytes()[..], &mode.to_le_bytes(), &room.to_le_bytes()].concat();
        self.ask(entry as u8, &[&head, listing])?;
        (0..rounds)
            .map(|_| Ok((u64::from_le_bytes(self.number()?), u64::from_le_bytes(self.number()?))))
            .collect()
    }
}

impl Drop for Host {
    fn drop(&mut self) {
        // it may be writing replies that nobody reads any more
        drop(self.input.take());
        let _ = self.child.kill();
        let _ = self.child.wait();
    }
}
