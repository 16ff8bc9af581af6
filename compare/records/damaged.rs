//! The ways in which document 01 lets a body be wrong. Some make an extended record of it, which then lacks bytes.

use crate::Random;
use oracle::Record;

/// The record's body with one thing wrong, or now and then two, which shows which answer goes first.
pub fn damage(random: &mut Random, record: Record) -> Vec<u8> {
    let mut body = record.body();
    once(random, &mut body);
    if random.chance(1, 4) {
        once(random, &mut body);
    }
    // no frame holds more
    body.truncate(65_535);
    body
}

fn once(random: &mut Random, body: &mut Vec<u8>) {
    let whole = body.len() >= 14 && (body.len() - 14) % 5 == 0;
    // a slot's bytes: kind, segment, first, second, scale
    let slots = if whole { (body.len() - 14) / 5 } else { 0 };
    let slot = |random: &mut Random| 14 + 5 * random.below(slots);
    match random.below(20) {
        0 if body.len() >= 2 => {
            let opcode = random.pick(&[154u16, 155, 200, 255, 256, 300, 0x8000, 0xffff]);
            body[..2].copy_from_slice(&opcode.to_be_bytes());
        }
        1 if body.len() >= 3 => body[2] |= random.pick(&[0x40, 0x80, 0xc0]),
        2 if body.len() >= 4 => body[3] = random.pick(&[0, 16, 17, 31, 32, 128, 255]),
        3 if whole => {
            // a count above 4 with as many operands as it says
            let count = random.pick(&[5, 5, 6, 7, 16, 100, 254, 255]);
            let kept = body.len();
            body[13] = count;
            body.resize(14 + 5 * count as usize, 0);
            for at in kept..body.len() {
                body[at] = if (at - 14) % 5 == 0 { 3 } else { 0 };
            }
        }
        4 if body.len() >= 14 => body[13] = random.byte(),
        5 if body.len() >= 14 => body[13] = body[13].wrapping_add(random.pick(&[1, 255])),
        6 | 7 if slots > 0 => {
            let at = slot(random);
            body[at] = random.pick(&[0, 17, 18, 32, 128, 255]);
        }
        // another kind over the same bytes: what one uses the other has to hold 0
        8 if slots > 0 => {
            let at = slot(random);
            body[at] = 1 + random.below(16) as u8;
        }
        9 | 10 if slots > 0 => {
            let at = slot(random);
            body[at + 1] = random.pick(&[7, 8, 1, 6, 64, 255]);
        }
        11 | 12 if slots > 0 => {
            // register bytes: none, or of a bank that brackets do not take
            let at = slot(random) + 2 + random.below(2);
            body[at] = random.pick(&[30, 31, 64, 65, 128, 255, 16, 24, 32, 40, 48, 56, 63, 15]);
        }
        13 | 14 if slots > 0 => {
            let at = slot(random);
            body[at + 4] = random.pick(&[0, 1, 3, 5, 6, 7, 9, 16, 255]);
        }
        15 if slots > 0 => {
            // one byte that may be unused
            let at = slot(random) + 1 + random.below(4);
            body[at] = random.pick(&[1, 2, 255]);
        }
        16 => {
            let kept = random.below(body.len() + 1);
            body.truncate(kept);
        }
        17 => {
            let added = 1 + random.below(5);
            body.extend((0..added).map(|_| random.byte()));
        }
        18 => match random.below(64) {
            0 => body.clear(),
            // a long body, up to the longest that a frame holds
            1 => body.resize(1285 + random.below(10), 0),
            2 => body.resize(65_535 - random.below(3), 0),
            _ => {
                let any = random.below(40);
                *body = (0..any).map(|_| random.byte()).collect();
            }
        },
        _ if !body.is_empty() => {
            let at = random.below(body.len());
            body[at] ^= 1 << random.below(8);
        }
        _ => {}
    }
}
