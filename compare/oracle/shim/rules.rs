//! Rules by which a caller may replace items of a line. Document 01 fixes the default. `compare/decoder`
//! puts this file beside the published crate too, whose addresses have a type of their own.

use super::{Instruction, RegSpec};
use core::fmt;

/// The default rules: no item is replaced by a caller's text.
pub(crate) trait DisplayRules<T> {
    fn emit_register(&self, _: RegSpec, _: &mut T) -> Result<bool, fmt::Error> {
        Ok(false)
    }
    fn emit_signed_immediate(&self, _: i32, _: &mut T) -> Result<bool, fmt::Error> {
        Ok(false)
    }
    fn emit_unsigned_immediate(&self, _: u32, _: &mut T) -> Result<bool, fmt::Error> {
        Ok(false)
    }
    fn emit_absolute_address(&self, _: u32, _: &mut T) -> Result<bool, fmt::Error> {
        Ok(false)
    }
    fn emit_far_address(&self, _: u16, _: u32, _: &mut T) -> Result<bool, fmt::Error> {
        Ok(false)
    }
    fn emit_branch_addr<Address>(&self, _: Address, _: i32, _: &mut T) -> Result<bool, fmt::Error> {
        Ok(false)
    }
    fn emit_operand(&self, _: &Instruction, _: u8, _: &mut T) -> Result<bool, fmt::Error> {
        Ok(false)
    }
}

pub(crate) struct NoRules;
impl<T> DisplayRules<T> for NoRules {}
