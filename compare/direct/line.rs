//! A line in the making: words, numerals and operands.

use crate::record::{Operand, Record};
use crate::tables::{REGISTERS, SEGMENTS};
use crate::LINE;

/// Of a record that may be extended, or of one that is not.
pub(crate) struct Line<'a, const EXTENDED: bool> {
    pub(crate) text: &'a mut [u8; LINE],
    pub(crate) at: usize,
}

impl<const EXTENDED: bool> Line<'_, EXTENDED> {
    #[inline]
    pub(crate) fn word(&mut self, word: &str) {
        self.text[self.at..self.at + word.len()].copy_from_slice(word.as_bytes());
        self.at += word.len();
    }

    #[inline]
    fn byte(&mut self, byte: u8) {
        self.text[self.at] = byte;
        self.at += 1;
    }

    #[inline]
    fn digits(&mut self, number: u32, count: u32) {
        for place in (0..count).rev() {
            self.byte(b"0123456789ABCDEF"[(number >> (4 * place) & 15) as usize]);
        }
    }

    /// Upper-case hex, a 0 in front of a letter, h above 9.
    #[inline]
    fn numeral(&mut self, number: u32) {
        let count = (35 - (number | 1).leading_zeros()) / 4;
        if number >> (4 * (count - 1)) > 9 {
            self.byte(b'0');
        }
        self.digits(number, count);
        if number > 9 {
            self.byte(b'h');
        }
    }

    /// So many digits and h, with a 0 in front of a letter.
    #[inline]
    fn address(&mut self, number: u32, count: u32) {
        if number >> (4 * (count - 1)) > 9 {
            self.byte(b'0');
        }
        self.digits(number, count);
        self.byte(b'h');
    }

    #[inline]
    fn absolute(&mut self, number: u32, count: u32) {
        self.byte(b'[');
        self.address(number, count);
        self.byte(b']');
    }

    #[inline]
    fn displacement(&mut self, disp: u32) {
        let negative = (disp as i32) < 0;
        self.word(if negative { " - " } else { " + " });
        // the least number is its own size, read as unsigned
        self.numeral(if negative { disp.wrapping_neg() } else { disp });
    }

    /// `$`, the sign and the size of a distance from the instruction's start.
    #[inline]
    pub(crate) fn branch(&mut self, sum: i32) {
        self.word(if sum < 0 { "$-" } else { "$+" });
        self.numeral(sum.unsigned_abs());
    }

    /// Where a branch goes.
    #[inline]
    pub(crate) fn target(&mut self, target: u32) {
        self.address(target, 8);
    }

    #[inline]
    pub(crate) fn register(&mut self, byte: u8) {
        self.word(REGISTERS[byte as usize & 127]);
    }

    #[inline]
    fn scaled(&mut self, index: u8, scale: u8) {
        self.register(index);
        if scale > 1 {
            self.word(" * ");
            self.byte(b'0' + scale);
        }
    }

    #[inline]
    pub(crate) fn segment(&mut self, operand: &Operand) {
        self.word(SEGMENTS[operand.segment as usize]);
    }

    /// The operand without label and segment, its mask after the bracket.
    #[inline]
    pub(crate) fn operand(&mut self, record: &Record, operand: &Operand) {
        let Operand { kind, first, second, scale, .. } = *operand;
        match kind {
            1 | 2 => return self.register(first),
            3 => return self.numeral(record.imm as i8 as u32),
            4 => return self.numeral(record.imm as i16 as u32),
            5 | 8 => return self.numeral(record.imm),
            6 => return self.numeral(record.imm as u8 as u32),
            7 => return self.numeral(record.imm as u16 as u32),
            9 => return self.absolute(record.disp as u16 as u32, 4),
            10 => return self.absolute(record.disp, 8),
            _ => {}
        }
        self.byte(b'[');
        match kind {
            11 | 12 => self.register(first),
            13 | 14 => self.scaled(first, scale),
            _ => {
                self.register(first);
                self.word(" + ");
                self.scaled(second, scale);
            }
        }
        if kind % 2 == 0 {
            self.displacement(record.disp);
        }
        self.byte(b']');
        if EXTENDED && operand.mask != 0 {
            self.mask(operand.mask);
        }
    }

    pub(crate) fn mask(&mut self, register: u8) {
        self.byte(b'{');
        self.register(register);
        self.byte(b'}');
    }

    /// `{1toN}`, N in decimal; none that is printed is above 16.
    pub(crate) fn broadcast(&mut self, count: u8) {
        self.word("{1to");
        if count > 9 {
            self.byte(b'1');
        }
        self.byte(b'0' + count % 10);
        self.byte(b'}');
    }

    /// The operand with label and segment where it is memory.
    #[inline]
    pub(crate) fn labelled(&mut self, record: &Record, operand: &Operand, label: &str) {
        if operand.is_memory() {
            self.word(label);
            self.segment(operand);
        }
        self.operand(record, operand);
    }

    /// The operand, but `st` for st(0).
    #[inline]
    pub(crate) fn stack_top(&mut self, record: &Record, operand: &Operand) {
        if operand.first == 32 {
            self.word("st");
        } else {
            self.operand(record, operand);
        }
    }
}
