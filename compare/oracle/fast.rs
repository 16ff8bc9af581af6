//! The listing printer made from 000 for the benchmark: refusals in front, 000 for the line, a lent
//! buffer, no allocation. A panic is not caught here; `print` is for that.

use crate::protected_mode::display::masm::contextualize;
use crate::record::Record;
use crate::refusals::{broadcast_refused, shape_refused, size_refused};
use crate::shim::arch::display::DisplaySink;
use crate::shim::{Instruction, NoRules};
use crate::{call_refused, straight, target, MAX_LISTING, TARGET, VERSIONS};
use core::fmt::{self, Write};

/// A lent buffer, written from `at` on. Where the buffer ends the bytes are only counted.
struct Lent<'a> {
    text: &'a mut [u8],
    at: usize,
}

impl fmt::Write for Lent<'_> {
    #[inline(always)]
    fn write_str(&mut self, text: &str) -> fmt::Result {
        let end = self.at + text.len();
        if let Some(place) = self.text.get_mut(self.at..end) {
            place.copy_from_slice(text.as_bytes());
        }
        self.at = end;
        Ok(())
    }
    #[inline(always)]
    fn write_char(&mut self, letter: char) -> fmt::Result {
        if let Some(place) = self.text.get_mut(self.at) {
            *place = letter as u8;
        }
        self.at += 1;
        Ok(())
    }
}

impl DisplaySink for Lent<'_> {}

/// The line, or the answer that refuses it with nothing written.
fn line(version: u32, body: &[u8], mode: u32, out: &mut Lent) -> Result<(), u64> {
    if call_refused(version, mode) {
        return Err(1);
    }
    let record = Record::read(version, body).map_err(u64::from)?;
    if shape_refused(&record) {
        return Err(4);
    }
    if size_refused(&record) {
        return Err(5);
    }
    if broadcast_refused(&record) {
        return Err(7);
    }
    let start = out.at;
    let printed = contextualize(&Instruction::of(&record), &NoRules, out);
    printed.expect("the buffer takes all");
    if mode > 0 && straight::is_branch(&record) {
        let dollar = straighten(&record, start, out);
        if mode == TARGET {
            out.at = dollar;
            target::numeral(&record, out).expect("the buffer takes all");
        }
    }
    Ok(())
}

/// 000's line for a branch, from `start` on, is given mode 1's word and sum. Where its `$` is then.
fn straighten(record: &Record, start: usize, out: &mut Lent) -> usize {
    let (word, dollar) = straight::place(&out.text[start..out.at]);
    let (word, dollar) = (start + word, start + dollar);
    let put = straight::word(record).as_bytes();
    let behind = word + put.len();
    out.text.copy_within(dollar..out.at, behind);
    out.text[word..behind].copy_from_slice(put);
    out.at = out.at - dollar + behind;
    if straight::is_short_branch(record) {
        out.at = behind + 1;
        straight::whole_sum(record, out).expect("the buffer takes all");
    }
    behind
}

/// As `masm_print_record`, for a buffer with room for any line.
pub fn print_record(version: u32, body: &[u8], mode: u32, text: &mut [u8]) -> u64 {
    let mut out = Lent { text, at: 0 };
    match line(version, body, mode, &mut out) {
        Ok(()) => out.at as u64,
        Err(answer) => answer << 32,
    }
}

/// As `masm_print_listing`, for a buffer with room for the text.
pub fn print_listing(listing: &[u8], mode: u32, text: &mut [u8]) -> u64 {
    if mode > TARGET {
        return 1 << 32;
    }
    if listing.len() > MAX_LISTING {
        return 2 << 32;
    }
    let mut out = Lent { text, at: 0 };
    let _ = lines(listing, mode, &mut out);
    let answer = if out.at > out.text.len() { 6 } else { 0 };
    answer << 32 | out.at as u64
}

fn lines(listing: &[u8], mode: u32, out: &mut Lent) -> fmt::Result {
    let (version, mut rest) = match listing.split_first() {
        None => return out.write_str("; cut\n"),
        Some((&byte, rest)) => (byte as u32, rest),
    };
    if !VERSIONS.contains(&version) {
        return out.write_str("; version\n");
    }
    while !rest.is_empty() {
        let frame = rest.split_first_chunk::<2>().and_then(|(length, behind)| {
            behind.split_at_checked(u16::from_be_bytes(*length) as usize)
        });
        let Some((body, behind)) = frame else {
            return out.write_str("; cut\n");
        };
        match line(version, body, mode, out) {
            Ok(()) => out.write_char('\n')?,
            Err(answer) => {
                out.write_str("; refused ")?;
                out.write_char((b'0' + answer as u8) as char)?;
                out.write_char('\n')?;
            }
        }
        rest = behind;
    }
    Ok(())
}
