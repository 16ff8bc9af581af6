//! `run COUNT SEED [opcodes]`: so many random records through everything.

use harness::{finish, Checker, Difference};
use records::Random;

fn main() {
    let words: Vec<String> = std::env::args().skip(1).collect();
    let number = |at: usize| words.get(at).and_then(|word| word.parse::<u64>().ok());
    let (Some(count), Some(seed)) = (number(0), number(1)) else {
        eprintln!("use: run COUNT SEED [opcodes]");
        std::process::exit(2);
    };
    finish(run(count, seed), words.get(2).is_some_and(|word| word == "opcodes"))
}

fn run(count: u64, seed: u64) -> Result<harness::Counts, Difference> {
    let mut random = Random::new(seed);
    let mut checker = Checker::start(seed);
    for _ in 0..count {
        if !checker.push(&records::body(&mut random))? {
            break;
        }
    }
    checker.finish()
}
