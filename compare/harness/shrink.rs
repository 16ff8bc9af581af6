//! From a record that shows a difference to a small one that still does.

use oracle::with_start;

/// Tries smaller bodies as long as one of them differs too: first fewer operands, then shorter, then
/// smaller bytes.
pub(crate) fn shrink(version: u32, body: Vec<u8>, mut differs: impl FnMut(&[u8]) -> bool) -> Vec<u8> {
    let mut best = body;
    let mut tries = 4000;
    'again: loop {
        for candidate in candidates(version, &best) {
            if tries == 0 {
                return best;
            }
            tries -= 1;
            if differs(&candidate) {
                best = candidate;
                continue 'again;
            }
        }
        return best;
    }
}

/// Of version 2 the start address is made smaller too, and what is beside it as in version 1.
fn candidates(version: u32, body: &[u8]) -> Vec<Vec<u8>> {
    let taken_apart = body.split_first_chunk::<4>().and_then(|(front, behind)| {
        let (start, rest) = behind.split_first_chunk::<4>()?;
        Some((u32::from_be_bytes(*start), [&front[..], rest].concat()))
    });
    match taken_apart {
        Some((start, fields)) if version == 2 => {
            let smaller = smaller_fields(&fields).into_iter().map(|fields| with_start(&fields, start));
            let starts = [0, 1, start / 2, start.saturating_sub(1)].into_iter().filter(|&other| other < start);
            smaller.chain(starts.map(|other| with_start(&fields, other))).collect()
        }
        _ => smaller_fields(body),
    }
}

fn smaller_fields(body: &[u8]) -> Vec<Vec<u8>> {
    let mut found = Vec::new();
    // a slot less, with the count to match; and a masked slot without its mask
    let mut start = 14;
    for _ in 0..body.get(13).copied().unwrap_or(0) {
        let masked = body.get(start).is_some_and(|kind| (17..=22).contains(kind));
        let end = start + if masked { 6 } else { 5 };
        if end > body.len() {
            break;
        }
        let mut smaller = body.to_vec();
        smaller.drain(start..end);
        smaller[13] -= 1;
        found.push(smaller);
        if masked {
            let mut smaller = body.to_vec();
            smaller.remove(end - 1);
            smaller[start] -= 6;
            // the two bytes after the operands may have to go with it
            found.push(smaller[..smaller.len().saturating_sub(2).max(14)].to_vec());
            found.push(smaller);
        }
        start = end;
    }
    // the two bytes after the operands belong to a vector opcode, and go with it
    if body.len() >= 16 && matches!(body, [0, 154..=175, ..]) {
        let mut smaller = body[..body.len() - 2].to_vec();
        smaller[1] = 0;
        found.push(smaller);
    }
    for kept in [body.len() / 2, body.len().saturating_sub(5), body.len().saturating_sub(2), body.len().saturating_sub(1)] {
        if kept < body.len() {
            found.push(body[..kept].to_vec());
        }
    }
    // the four-byte numbers whole: imm, disp
    for at in [5, 9] {
        if body.len() >= 14 && body[at..at + 4] != [0; 4] {
            let mut smaller = body.to_vec();
            smaller[at..at + 4].fill(0);
            found.push(smaller);
        }
    }
    for at in 0..body.len() {
        // a length of 1 is as small as a length of 0, and sound
        let values = if at == 3 { [1, 2, 5] } else { [0, 1, body[at] / 2] };
        for value in values.into_iter().chain([body[at].saturating_sub(1)]) {
            if value < body[at] {
                let mut smaller = body.to_vec();
                smaller[at] = value;
                found.push(smaller);
            }
        }
    }
    found
}
