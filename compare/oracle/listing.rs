//! A listing: a version byte, then framed records; one line for each.

use crate::print::{line_into, Complaint, Sink};
use crate::VERSIONS;

/// The whole listing's lines, behind `out`'s bytes, in one of the modes 0 to 2. A complaint names the record's body.
pub fn listing_into(listing: &[u8], mode: u32, out: &mut Sink) -> Result<(), (Complaint, Vec<u8>)> {
    let (version, mut rest) = match listing.split_first() {
        None => return say(out, "; cut"),
        Some((&byte, rest)) => (byte as u32, rest),
    };
    if !VERSIONS.contains(&version) {
        return say(out, "; version");
    }
    while !rest.is_empty() {
        let frame = rest.split_first_chunk::<2>().and_then(|(length, behind)| {
            behind.split_at_checked(u16::from_be_bytes(*length) as usize)
        });
        let Some((body, behind)) = frame else {
            return say(out, "; cut");
        };
        match line_into(version, body, mode, out) {
            Ok(0) => out.0.push(b'\n'),
            Ok(answer) => say(out, &format!("; refused {answer}"))?,
            Err(complaint) => return Err((complaint, body.to_vec())),
        }
        rest = behind;
    }
    Ok(())
}

fn say(out: &mut Sink, line: &str) -> Result<(), (Complaint, Vec<u8>)> {
    out.0.extend_from_slice(line.as_bytes());
    out.0.push(b'\n');
    Ok(())
}
