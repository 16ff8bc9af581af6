//! Start addresses, and with them the version 2 body of a version 1 body.

use crate::Random;
use oracle::with_start;

/// Where a sum turns: the ends of 32 bits, the middle, and the first address that is written with a 0 in front.
const TURNS: [u32; 4] = [0, 0x7fff_ffff, 0x8000_0000, 0xa000_0000];

/// A start address: near one of the turns, so that a distance may cross it, or any.
pub fn start(random: &mut Random) -> u32 {
    match random.below(4) {
        0 => random.pick(&TURNS).wrapping_add(random.below(5) as u32).wrapping_sub(2),
        1 => random.pick(&TURNS).wrapping_add(random.below(400) as u32).wrapping_sub(200),
        _ => random.bits() as u32,
    }
}

/// The longest body that a frame holds.
const LONGEST: usize = 65_535;

/// A version 1 body as one of version 2. The longest have no room for the start address and stay as they are.
pub fn located_at(body: &[u8], start: u32) -> Vec<u8> {
    if body.len() + 4 > LONGEST {
        body.to_vec()
    } else {
        with_start(body, start)
    }
}

/// The same by chance: mostly with a start address put in, one time in sixteen the same bytes, so that there are bodies
/// too short for an address, and bodies of the other version.
pub fn located(random: &mut Random, body: &[u8]) -> Vec<u8> {
    let start = start(random);
    if random.chance(1, 16) {
        body.to_vec()
    } else {
        located_at(body, start)
    }
}
