//! The oracle: what document 01 says that a record or a listing prints.
//!
//! The text of an accepted record is not written here. It comes out of document 000
//! (`src/protected_mode/display/masm.rs`), which is compiled in place and unchanged from the folder
//! that the build variable `MASM_SRC` names. This crate supplies what 000 imports, puts document
//! 01's refusals in front of it, and adds what 000 has not: modes 1 and 2 and the listing.
//!
//! - `shim`: the items that 000 imports, small, with document 01's choices where 000 leaves one out
//! - `opcodes`: the 176 numbered opcodes, and those that 000 names beside them
//! - `record`: a body's fields in either version, answers 2 and 3
//! - `refusals`: answers 4, 5 and 7, from document 01's lists and W-204 and never from 000
//! - `straight`: mode 1's word and sum in 000's line for a branch
//! - `target`: mode 2's target in mode 1's line for a branch
//! - `print`: one record's answer and line in each mode, answer 1
//! - `listing`: frames and lines
//! - `comparison`: two listings side by side
//! - `fast`: the same for the benchmark, into a lent buffer; it needs only `core` (`--cfg bare`)

#![cfg_attr(bare, no_std)]

#[cfg(not(bare))]
mod comparison;
mod fast;
#[cfg(not(bare))]
mod listing;
mod opcodes;
#[cfg(not(bare))]
mod print;
pub mod record;
mod refusals;
mod shim;
mod straight;
mod target;

/// The listing entry's limit, the version byte counted. The programs have none.
pub const MAX_LISTING: usize = 16_777_216;

/// The last mode, which shows targets and takes records of version 2 alone.
const TARGET: u32 = 2;

/// The versions of records and listings.
pub const VERSIONS: [u32; 2] = [1, 2];

/// Answer 1: "a mode above 2; a record version that is not 1 or 2; mode 2 with a version 1 record".
pub(crate) fn call_refused(version: u32, mode: u32) -> bool {
    mode > TARGET || !VERSIONS.contains(&version) || mode == TARGET && version == 1
}

#[cfg(not(bare))]
pub use comparison::comparison_into;
pub use fast::{print_listing, print_record};
#[cfg(not(bare))]
pub use listing::listing_into;
pub use opcodes::{name_of, OPCODES};
#[cfg(not(bare))]
pub use print::{line_into, unguarded_line, Complaint, Sink};
#[cfg(not(bare))]
pub use record::with_start;
pub use record::{Record, Slot};
pub use straight::is_branch;

/// The stand-in for the crate `yaxpeax_arch`, under the name that 000 imports it by.
pub(crate) use shim::arch as yaxpeax_arch;

/// The stand-in for the crate's own module of that name.
pub(crate) mod protected_mode {
    pub(crate) use crate::opcodes::Opcode;
    pub(crate) use crate::shim::{
        DisplayRules, Instruction, MergeMode, Operand, OperandSpec, OperandVisitor, RegSpec,
        RegisterBank, SaeMode,
    };

    pub(crate) mod display {
        pub(crate) use crate::shim::DisplaySinkExt;

        /// Document 000, unchanged. Its warnings are its own affair.
        #[allow(warnings, clippy::all)]
        pub(crate) mod masm {
            use crate::yaxpeax_arch;
            include!(concat!(
                env!("MASM_SRC"),
                "/src/protected_mode/display/masm.rs"
            ));
        }
    }
}
