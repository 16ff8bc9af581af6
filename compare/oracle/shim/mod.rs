//! What document 000 imports, just enough of it to compile and run 000 unchanged.
//!
//! Two rules make it an oracle for document 01. Each operand has its own registers, scale and
//! segment, also where the Rust reads shared ones. And nothing is made up in silence: a label, a
//! register or an operand that is not there panics, and the caller reports it.

pub(crate) mod arch;
mod evex;
mod instruction;
mod operands;
mod rules;
mod words;

pub(crate) use evex::{MergeMode, SaeMode};
pub(crate) use instruction::Instruction;
pub(crate) use operands::{Operand, OperandSpec, OperandVisitor};
pub(crate) use rules::{DisplayRules, NoRules};
pub(crate) use words::{DisplaySinkExt, RegSpec, RegisterBank};
