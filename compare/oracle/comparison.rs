//! Two listings side by side: the records that differ, by number, with both lines. Written from the request for it
//! alone. Both listings are taken apart whole before anything is compared, so it knows no places and no reads.

use crate::print::{line_into, Complaint, Sink};
use crate::VERSIONS;

/// A listing taken apart.
struct Listing<'a> {
    /// `; cut` where there is no version byte, `; version` where it is not known
    refusal: Option<&'static str>,
    version: u32,
    /// of its whole frames
    bodies: Vec<&'a [u8]>,
    /// bytes are left after them
    cut: bool,
}

impl Listing<'_> {
    fn of(bytes: &[u8]) -> Listing<'_> {
        let mut listing = Listing { refusal: None, version: 0, bodies: Vec::new(), cut: false };
        match bytes.first() {
            None => listing.refusal = Some("; cut"),
            Some(&byte) if VERSIONS.contains(&(byte as u32)) => {
                listing.version = byte as u32;
                let mut at = 1;
                while at + 2 <= bytes.len() {
                    let start = at + 2;
                    let end = start + 256 * bytes[at] as usize + bytes[at + 1] as usize;
                    if end > bytes.len() {
                        break;
                    }
                    listing.bodies.push(&bytes[start..end]);
                    at = end;
                }
                listing.cut = at < bytes.len();
            }
            Some(_) => listing.refusal = Some("; version"),
        }
        listing
    }

    /// The line that it shows for a record, which is by its own version.
    fn line(&self, body: &[u8], mode: u32) -> Result<String, (Complaint, Vec<u8>)> {
        let mut text = Sink::default();
        match line_into(self.version, body, mode, &mut text) {
            Ok(0) => Ok(String::from_utf8_lossy(&text.0).into_owned()),
            Ok(answer) => Ok(format!("; refused {answer}")),
            Err(complaint) => Err((complaint, body.to_vec())),
        }
    }

    fn cut_at(&self, number: usize) -> Option<&'static str> {
        (self.cut && number == self.bodies.len()).then_some("; cut")
    }
}

/// What is said of each side at the end of a run.
type Ends = [Option<&'static str>; 2];

/// The report, after `out`'s bytes, and whether the two are the same. A complaint names the record's body.
pub fn comparison_into(first: &[u8], second: &[u8], mode: u32, out: &mut Sink) -> Result<bool, (Complaint, Vec<u8>)> {
    let sides = [Listing::of(first), Listing::of(second)];
    let mut events = Vec::new();
    // before record 0 stand the version bytes
    let mut ends = [sides[0].refusal, sides[1].refusal];
    if ends == [None, None] {
        ends = walk(&sides, mode, &mut events)?;
    }
    let mut report = events.concat();
    for (name, end) in ["first", "second"].iter().zip(ends) {
        if let Some(end) = end {
            report += &format!("{name}: {end}\n");
        }
    }
    report += &format!("differing records: {}\n", events.len());
    out.0.extend_from_slice(report.as_bytes());
    Ok(events.is_empty() && ends == [None, None])
}

/// A text for each record that is named.
fn walk(sides: &[Listing; 2], mode: u32, events: &mut Vec<String>) -> Result<Ends, (Complaint, Vec<u8>)> {
    let [first, second] = sides;
    for number in 0.. {
        let ends = [first.cut_at(number), second.cut_at(number)];
        if ends != [None, None] {
            return Ok(ends);
        }
        let (what, lines) = match (first.bodies.get(number), second.bodies.get(number)) {
            (None, None) => break,
            // the bodies alone decide, whatever the versions are
            (Some(a), Some(b)) if a == b => continue,
            (Some(a), Some(b)) => {
                let (a, b) = (first.line(a, mode)?, second.line(b, mode)?);
                if a == b {
                    ("differs, same line", format!("  both:   {a}\n"))
                } else {
                    ("differs", format!("  first:  {a}\n  second: {b}\n"))
                }
            }
            (Some(a), None) => ("only in the first", format!("  first:  {}\n", first.line(a, mode)?)),
            (None, Some(b)) => ("only in the second", format!("  second: {}\n", second.line(b, mode)?)),
        };
        events.push(format!("record {number} {what}\n{lines}"));
    }
    Ok([None, None])
}
