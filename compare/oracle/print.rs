//! One record: its answer and, if it is printed, its line in each mode.

use crate::protected_mode::display::masm::contextualize;
use crate::record::Record;
use crate::refusals::{broadcast_refused, shape_refused, size_refused};
use crate::shim::arch::display::DisplaySink;
use crate::shim::{Instruction, NoRules};
use crate::{call_refused, straight, target, TARGET};
use core::fmt;
use std::panic::{catch_unwind, AssertUnwindSafe};

/// What must never be silent: 000 cannot print a record that document 01 accepts.
#[derive(Clone, Debug, PartialEq, Eq)]
pub struct Complaint(pub String);

/// A text that grows. 000 writes through it.
#[derive(Default)]
pub struct Sink(pub Vec<u8>);

impl fmt::Write for Sink {
    #[inline(always)]
    fn write_str(&mut self, text: &str) -> fmt::Result {
        self.0.extend_from_slice(text.as_bytes());
        Ok(())
    }
    #[inline(always)]
    fn write_char(&mut self, letter: char) -> fmt::Result {
        self.0.push(letter as u8);
        Ok(())
    }
}

impl DisplaySink for Sink {}

/// 000's line for a record, with no refusal in front of it, behind `out`'s bytes.
fn run_000(record: &Record, out: &mut Sink) -> Result<(), Complaint> {
    let instruction = Instruction::of(record);
    catch_unwind(AssertUnwindSafe(|| contextualize(&instruction, &NoRules, out)))
        .map_err(|why| {
            let said = why.downcast_ref::<String>().cloned();
            let said = said.or_else(|| why.downcast_ref::<&str>().map(|said| said.to_string()));
            Complaint(said.unwrap_or_default())
        })?
        .map_err(|_| Complaint("000 returned an error".into()))
}

/// What 000 does with fields that keep the record rules, whatever answers 4, 5 and 7 say: its line, or
/// what it panicked with.
pub fn unguarded_line(record: &Record) -> Result<String, Complaint> {
    let mut out = Sink::default();
    run_000(record, &mut out)?;
    Ok(String::from_utf8_lossy(&out.0).into_owned())
}

/// Answer 0 and the line after `out`'s bytes, or answer 1 to 5 or 7 and `out` as it was. Answer 6 depends on the
/// buffer and is the caller's.
pub fn line_into(version: u32, body: &[u8], mode: u32, out: &mut Sink) -> Result<u8, Complaint> {
    if call_refused(version, mode) {
        return Ok(1);
    }
    let record = match Record::read(version, body) {
        Ok(record) => record,
        Err(answer) => return Ok(answer),
    };
    if shape_refused(&record) {
        return Ok(4);
    }
    if size_refused(&record) {
        return Ok(5);
    }
    if broadcast_refused(&record) {
        return Ok(7);
    }
    let start = out.0.len();
    if let Err(complaint) = run_000(&record, out) {
        out.0.truncate(start);
        return Err(complaint);
    }
    if mode > 0 && straight::is_branch(&record) {
        straighten(&record, out);
        if mode == TARGET {
            aim(&record, out);
        }
    }
    Ok(0)
}

/// Mode 1's only difference: the word before `$`, and the sum of an 8-bit distance and the length, which is kept whole.
fn straighten(record: &Record, out: &mut Sink) {
    let (word, dollar) = straight::place(&out.0);
    out.0.splice(word..dollar, straight::word(record).bytes());
    if straight::is_short_branch(record) {
        let dollar = word + straight::word(record).len();
        out.0.truncate(dollar + 1);
        straight::whole_sum(record, out).expect("the sink takes all");
    }
}

/// Mode 2's only difference from mode 1: the target in place of `$` and what follows it.
fn aim(record: &Record, out: &mut Sink) {
    let (_, dollar) = straight::place(&out.0);
    out.0.truncate(dollar);
    target::numeral(record, out).expect("the sink takes all");
}
