//! Some thousand records, each in both versions, and what the oracle says of them in every mode.

use crate::difference::Difference;
use crate::shrink::shrink;
use oracle::{line_into, Complaint, Sink, VERSIONS};

/// So many records go to the consumers at a time.
pub(crate) const RECORDS: usize = 4096;

/// So many modes there are, from 0 on.
pub(crate) const MODES: u32 = 3;

/// How the records of a batch are looked at: as bodies of a version, in a mode.
#[derive(Clone, Copy, Debug, PartialEq, Eq)]
pub(crate) struct View {
    pub(crate) version: u32,
    pub(crate) mode: u32,
}

impl View {
    pub(crate) fn all() -> impl Iterator<Item = View> {
        VERSIONS.into_iter().flat_map(|version| (0..MODES).map(move |mode| View { version, mode }))
    }

    fn place(self) -> usize {
        (MODES * (self.version - 1) + self.mode) as usize
    }
}

#[derive(Default)]
pub(crate) struct Batch {
    /// the number of the first record in the whole run
    pub(crate) first: usize,
    /// of version 1, of version 2
    bodies: [Bodies; 2],
    /// by the view's place
    views: [Lines; 6],
}

#[derive(Default)]
struct Bodies {
    bytes: Vec<u8>,
    ends: Vec<usize>,
}

#[derive(Default)]
struct Lines {
    answers: Vec<u8>,
    /// each line as a listing has it, newline and all
    text: Sink,
    ends: Vec<usize>,
}

impl Lines {
    fn push(&mut self, view: View, body: &[u8]) -> Result<(), Complaint> {
        let answer = line_into(view.version, body, view.mode, &mut self.text)?;
        if answer != 0 {
            self.text.0.extend_from_slice(b"; refused ");
            self.text.0.push(b'0' + answer);
        }
        self.text.0.push(b'\n');
        self.answers.push(answer);
        self.ends.push(self.text.0.len());
        Ok(())
    }
}

impl Batch {
    pub(crate) fn new(first: usize) -> Batch {
        Batch { first, ..Batch::default() }
    }

    pub(crate) fn len(&self) -> usize {
        self.bodies[0].ends.len()
    }

    pub(crate) fn bytes(&self) -> usize {
        self.bodies[0].bytes.len()
    }

    /// Asks the oracle in every view. That 000 cannot print an accepted record is reported at once.
    pub(crate) fn push(&mut self, bodies: [&[u8]; 2]) -> Result<(), Difference> {
        for view in View::all() {
            let body = bodies[view.version as usize - 1];
            self.views[view.place()].push(view, body).map_err(|complaint| smaller_complaint(view, body, complaint))?;
        }
        for (body, to) in bodies.into_iter().zip(&mut self.bodies) {
            to.bytes.extend_from_slice(body);
            to.ends.push(to.bytes.len());
        }
        Ok(())
    }

    pub(crate) fn body(&self, version: u32, at: usize) -> &[u8] {
        let bodies = &self.bodies[version as usize - 1];
        part(&bodies.bytes, &bodies.ends, at)
    }

    pub(crate) fn answer(&self, view: View, at: usize) -> u8 {
        self.views[view.place()].answers[at]
    }

    /// The line that the listing shows for a record, without its newline.
    pub(crate) fn line(&self, view: View, at: usize) -> &[u8] {
        let lines = &self.views[view.place()];
        let line = part(&lines.text.0, &lines.ends, at);
        &line[..line.len() - 1]
    }

    /// All lines, as a listing shows them.
    pub(crate) fn text(&self, view: View) -> &[u8] {
        &self.views[view.place()].text.0
    }

    /// The record whose line holds the text's byte at a place.
    pub(crate) fn record_at(&self, view: View, byte: usize) -> usize {
        self.views[view.place()].ends.partition_point(|&end| end <= byte).min(self.len() - 1)
    }

    /// The records as frames of a listing, without the version byte.
    pub(crate) fn frames(&self, version: u32) -> Vec<u8> {
        let mut frames = Vec::with_capacity(self.bodies[1].bytes.len() + 2 * self.len());
        for at in 0..self.len() {
            let body = self.body(version, at);
            frames.extend((body.len() as u16).to_be_bytes());
            frames.extend_from_slice(body);
        }
        frames
    }
}

/// The smallest record found that 000 cannot print.
fn smaller_complaint(view: View, body: &[u8], mut complaint: Complaint) -> Difference {
    let smallest = shrink(view.version, body.to_vec(), |candidate| {
        let outcome = line_into(view.version, candidate, view.mode, &mut Sink::default());
        outcome.map_err(|found| complaint = found).is_err()
    });
    Difference::complaint(&smallest, &complaint)
}

fn part<'a>(bytes: &'a [u8], ends: &[usize], at: usize) -> &'a [u8] {
    let start = if at == 0 { 0 } else { ends[at - 1] };
    &bytes[start..ends[at]]
}
