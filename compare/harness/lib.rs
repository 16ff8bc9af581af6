//! The comparison: batches of records go to three consumers, each beside the others, and every byte
//! that comes back is held to the oracle's.
//!
//! - `batch`: records in both versions with the oracle's answers and lines
//! - `host`: the C host, which calls the archive's two functions
//! - `programs`: the three listing programs, each fed one long listing of each version
//! - `checker`: brings them together and counts
//! - `shrink`: makes a record that shows a difference small
//! - `difference`: what is printed then

mod batch;
mod checker;
mod difference;
mod host;
mod programs;
mod shrink;

pub use checker::{Checker, Counts};
pub use difference::Difference;
pub use host::{Expected, Host, Timed};
pub use programs::run_program;

/// The commands that the scripts set up: the C host over the archive, the listing programs.
pub fn command(variable: &str) -> String {
    std::env::var(variable).unwrap_or_else(|_| {
        eprintln!("{variable} is not set: start this through the scripts of compare/");
        std::process::exit(2)
    })
}

/// Bytes in hex, as a person would type them.
pub fn hex(bytes: &[u8]) -> String {
    let pairs: Vec<String> = bytes.iter().map(|byte| format!("{byte:02X}")).collect();
    pairs.join(" ")
}

/// Reports the outcome of a whole comparison and ends the program: 0 where all agreed.
pub fn finish(outcome: Result<Counts, Difference>, opcodes: bool) -> ! {
    match outcome {
        Ok(counts) => {
            counts.print(opcodes);
            println!("no difference");
            std::process::exit(0)
        }
        Err(difference) => {
            difference.print();
            std::process::exit(1)
        }
    }
}
