//! The printer once more, written straight from document 01 and without 000's visitor.
//!
//! It has two uses. The benchmark wants to know what plain, careful Rust costs, not only what 000
//! costs. And exported under the archive's two names it stands in for the archive, so that the
//! comparison can be tried, and shown faults, with no Rattle at hand.
//!
//! It keeps to `core`, allocates nothing, and decides every refusal before it writes.

#![no_std]

mod arms;
mod line;
mod record;
mod tables;

use line::Line;
use record::{Front, Record};

const MAX_LISTING: usize = 16_777_216;

/// The mode that shows targets, for which a record needs a start address.
const TARGET: u32 = 2;

/// The longest line is 257 bytes; a line's buffer has room to spare.
const LINE: usize = 320;

fn answer(number: u64, length: usize) -> u64 {
    number << 32 | length as u64
}

/// The line in `line`'s first bytes, or the answer that refuses it. The version is 1 or 2, and the mode up to 2.
#[inline]
fn print(version: u32, body: &[u8], mode: u32, line: &mut [u8; LINE]) -> Result<usize, u64> {
    if version == 1 && mode == TARGET {
        return Err(1);
    }
    let (&front, behind) = body.split_first_chunk::<4>().ok_or(2u64)?;
    if version == 1 {
        return print_fields(front, 0, behind, mode, line);
    }
    let (&start, rest) = behind.split_first_chunk::<4>().ok_or(2u64)?;
    print_fields(front, u32::from_be_bytes(start), rest, mode, line)
}

/// The fields are the same in both versions, and so is the code.
#[inline(never)]
fn print_fields(front: Front, start: u32, rest: &[u8], mode: u32, line: &mut [u8; LINE]) -> Result<usize, u64> {
    match Record::read_plain(front, start, rest) {
        Some(record) => print_read::<false>(&record, mode, line),
        None => print_any(front, start, rest, mode, line),
    }
}

#[cold]
#[inline(never)]
fn print_any(front: Front, start: u32, rest: &[u8], mode: u32, line: &mut [u8; LINE]) -> Result<usize, u64> {
    print_read::<true>(&Record::read(front, start, rest)?, mode, line)
}

/// Plain records have code of their own, which asks for no masks, counts and tails: so extended ones cost them nothing.
#[inline(always)]
fn print_read<const EXTENDED: bool>(record: &Record, mode: u32, line: &mut [u8; LINE]) -> Result<usize, u64> {
    let arm = arms::decide::<EXTENDED>(record)?;
    let mut line = Line::<EXTENDED> { text: line, at: 0 };
    arms::print(record, arm, mode, &mut line);
    Ok(line.at)
}

pub fn print_record(version: u32, body: &[u8], mode: u32, text: &mut [u8]) -> u64 {
    if mode > TARGET || version.wrapping_sub(1) > 1 {
        return answer(1, 0);
    }
    if let Some(line) = text.first_chunk_mut::<LINE>() {
        return match print(version, body, mode, line) {
            Ok(length) => answer(0, length),
            Err(refused) => answer(refused, 0),
        };
    }
    let mut line = [0; LINE];
    match print(version, body, mode, &mut line) {
        Ok(length) if length <= text.len() => {
            text[..length].copy_from_slice(&line[..length]);
            answer(0, length)
        }
        Ok(length) => answer(6, length),
        Err(refused) => answer(refused, 0),
    }
}

pub fn print_listing(listing: &[u8], mode: u32, text: &mut [u8]) -> u64 {
    if mode > TARGET {
        return answer(1, 0);
    }
    if listing.len() > MAX_LISTING {
        return answer(2, 0);
    }
    // a line with its newline has less than seven times its frame's bytes (most of all a VCVTNEPS2BF16 of four
    // brackets, 242 of 38), so with that much room nothing needs to be measured first
    if text.len() < 7 * listing.len() + 6 {
        let needed = write_listing(listing, mode, None);
        if needed > text.len() {
            return answer(6, needed);
        }
    }
    answer(0, write_listing(listing, mode, Some(text)))
}

/// Writes the lines, or only counts their bytes.
fn write_listing(listing: &[u8], mode: u32, mut text: Option<&mut [u8]>) -> usize {
    let mut at = 0;
    let (version, mut rest) = match listing.split_first() {
        None => return put(&mut text, at, b"; cut\n"),
        Some((&version @ (1 | 2), rest)) => (version as u32, rest),
        Some(_) => return put(&mut text, at, b"; version\n"),
    };
    while !rest.is_empty() {
        let frame = rest.split_first_chunk::<2>().and_then(|(length, behind)| {
            behind.split_at_checked(u16::from_be_bytes(*length) as usize)
        });
        let Some((body, behind)) = frame else {
            return put(&mut text, at, b"; cut\n");
        };
        rest = behind;
        let room = text.as_deref_mut().and_then(|text| text.get_mut(at..at + LINE + 1));
        let refused = match room {
            // straight into the text where a whole line is sure to fit
            Some(room) => match print(version, body, mode, room.first_chunk_mut().expect("a line fits")) {
                Ok(length) => {
                    room[length] = b'\n';
                    at += length + 1;
                    continue;
                }
                Err(refused) => refused,
            },
            None => {
                let mut line = [0; LINE];
                match print(version, body, mode, &mut line) {
                    Ok(length) => {
                        at = put(&mut text, at, &line[..length]);
                        at = put(&mut text, at, b"\n");
                        continue;
                    }
                    Err(refused) => refused,
                }
            }
        };
        at = put(&mut text, at, b"; refused ");
        at = put(&mut text, at, &[b'0' + refused as u8, b'\n']);
    }
    at
}

fn put(text: &mut Option<&mut [u8]>, at: usize, bytes: &[u8]) -> usize {
    if let Some(text) = text {
        text[at..at + bytes.len()].copy_from_slice(bytes);
    }
    at + bytes.len()
}
