//! Numbers with the edges that numerals, signs and sizes turn on.

use crate::Random;

/// Edges of 8, 16 and 32 bits and of the numerals, and a number that only ends like AAM's 10, each
/// taken with its neighbours.
const EDGES: [u32; 19] = [
    0, 9, 10, 15, 16, 0x7f, 0x80, 0x9f, 0xa0, 0xff, 0x100, 0x10a, 0x7fff, 0x8000, 0xffff, 0xabcd, 0x7fff_ffff,
    0x8000_0000, 0x9fff_ffff,
];

/// A 32-bit number for imm or disp: an edge, its negation, or any bits of any width.
pub fn number(random: &mut Random) -> u32 {
    match random.below(8) {
        0..=2 => random.pick(&EDGES).wrapping_add(random.below(3) as u32).wrapping_sub(1),
        3..=4 => random.pick(&EDGES).wrapping_add(random.below(3) as u32).wrapping_sub(1).wrapping_neg(),
        // a branch distance whose sum with a length comes near an edge
        5 => random.pick(&EDGES).wrapping_sub(random.below(17) as u32),
        _ => (random.bits() >> 32) as u32 >> random.below(32),
    }
}

/// A mem_size: mostly one that some arm has a label for.
pub fn mem_size(random: &mut Random) -> u8 {
    if random.chance(1, 24) {
        random.byte()
    } else {
        random.pick(&[
            0, 1, 1, 2, 2, 4, 4, 4, 6, 6, 8, 8, 8, 10, 10, 16, 16, 32, 48, 63, 64, 4, 8, 1, 2, 4, 8, 16,
        ])
    }
}
