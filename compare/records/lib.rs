//! Records by chance: a seed gives the same records on every machine.

mod damaged;
mod extended;
mod numbers;
mod random;
mod sound;
mod starts;

pub use random::Random;
pub use starts::{located, located_at, start};

/// The next body: half of them extended. About three fifths keep the record rules (most of these also have a
/// shape that their opcode takes), the rest is damaged in one of the ways that document 01 and W-204 name.
pub fn body(random: &mut Random) -> Vec<u8> {
    if random.chance(1, 2) {
        extended_body(random)
    } else {
        plain_body(random)
    }
}

/// The next body of those that are not extended, but for some that are damaged. The stored listings have them in
/// the order of their seed, so this takes the same numbers for good.
pub fn plain_body(random: &mut Random) -> Vec<u8> {
    let record = sound::record(random);
    if random.chance(2, 5) {
        damaged::damage(random, record)
    } else {
        record.body()
    }
}

/// The next body of those that are extended, but for some that are damaged.
pub fn extended_body(random: &mut Random) -> Vec<u8> {
    let record = extended::record(random);
    if random.chance(2, 5) {
        extended::damage(random, record)
    } else {
        record.body()
    }
}

/// Only bodies that keep the record rules, and are not extended.
pub fn sound_plain_body(random: &mut Random) -> Vec<u8> {
    sound::record(random).body()
}

/// Only bodies that keep the record rules, and are extended.
pub fn sound_extended_body(random: &mut Random) -> Vec<u8> {
    extended::record(random).body()
}
