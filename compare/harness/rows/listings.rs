//! Listings: small ones whole, and those at the limit.

use super::*;

/// "A listing prints each record and a newline; a refused one prints `; refused N`."
pub(super) fn listings(rows: &mut Rows) {
    let push = op("push", &[I8]).imm(-1).body();
    let jmp = op("jmp", &[I8]).imm(126).long(2).body();
    let near = op("jmp", &[I32]).imm(123).long(5).body();
    let (no_length, no_field) = (vec![], vec![0; 14]);
    let (no_shape, no_size) = (op("hreset", &[]).body(), op("mov", &[at(EAX)]).body());
    rows.section("Listings: empty, of another version, of a version byte alone, cut in a length and in a body");
    for part in [&[][..], &[0], &[3], &[3, 0, 0], &[255, 1], &[1], &[1, 0], &[1, 1], &[1, 0, 1], &[1, 0, 2, 0], &[1, 1, 0, 7]] {
        rows.listing(part, &[], &[]);
    }
    rows.section("Listings: document 01's whole one, and the same cut");
    rows.listing(&[1], &[&near], &[]);
    rows.listing(&[1], &[], &[&[0, 19], &near[..18]].concat());
    rows.section("Listings: refused records among lines, and a cut after them");
    rows.listing(&[1], &[&no_length], &[]);
    rows.listing(&[1], &[&push, &no_length, &jmp, &no_field], &[]);
    rows.listing(&[1], &[&no_shape, &push, &no_size], &[0, 5, 1, 1]);
    rows.listing(&[1], &[&jmp, &near, &jmp], &[0]);
    rows.section("Listings: numbers that are no mode");
    for listing in [&[][..], &[1], &[3]] {
        let hex: Vec<String> = listing.iter().map(|byte| format!("{byte:02X}")).collect();
        let [came, other] = NO_MODES.map(|mode| print_listing(listing, mode, &mut [0; 16]));
        assert_eq!(came, other);
        rows.listed(&no_modes(), &hex.join(" "), came >> 32, "");
    }
}

/// Extended records in a listing: refused with each answer of theirs, among lines.
pub(super) fn vector_listings(rows: &mut Rows) {
    rows.section("Listings: extended records among others, and `; refused 7`");
    let add = op("vaddpd", &[r(ZMM0), r(ZMM0 + 1), masked(1, at(EAX))]).size(8).flags(BROADCAST).end(1, 2).body();
    let scatter = op("vpscatterdd", &[both(EAX, ZMM0 + 1, 4), m(K0 + 1), r(ZMM0 + 2)]).body();
    let seven = op("vaddpd", &[r(ZMM0), at(EAX)]).size(2).flags(BROADCAST).body();
    let no_shape = op("vpscatterqq", &[]).body();
    let short = scatter[..scatter.len() - 2].to_vec();
    let push = op("push", &[I8]).imm(-1).body();
    rows.listing(&[1], &[&add, &push, &scatter], &[]);
    rows.listing(&[1], &[&seven], &[]);
    rows.listing(&[1], &[&short, &seven, &push, &no_shape, &add], &[0, 38, 0]);
}

/// "listing over 16,777,216 bytes", of listings whose every byte is 3, so that they have one line.
pub(super) fn limits(rows: &mut Rows) {
    rows.section("Listings at the limit, and a byte longer");
    for length in [MAX_LISTING, MAX_LISTING + 1] {
        let mut room = [0; 16];
        let came = [0, 1].map(|mode| print_listing(&vec![3; length], mode, &mut room));
        assert_eq!(came[0], came[1]);
        let text = String::from_utf8_lossy(&room[..came[0] as u32 as usize]).into_owned();
        rows.listed("0 1", &format!("03 x {length}"), came[0] >> 32, text.trim_end());
    }
}

impl Rows {
    /// A listing of a first part, whole frames of these bodies, and an end.
    fn listing(&mut self, first: &[u8], bodies: &[&Vec<u8>], end: &[u8]) {
        let plain = |bytes: &[u8]| bytes.iter().map(|byte| format!("{byte:02X}")).collect::<Vec<_>>().join(" ");
        let mut listing = first.to_vec();
        let mut parts = vec![plain(first)];
        for body in bodies {
            listing.extend((body.len() as u16).to_be_bytes());
            listing.extend_from_slice(body);
            parts.push(format!("{:04X}", body.len()));
            parts.push(hex(body));
        }
        listing.extend_from_slice(end);
        parts.push(plain(end));
        parts.retain(|part| !part.is_empty());
        let lines = [0, 1].map(|mode| {
            let mut out = Sink::default();
            listing_into(&listing, mode, &mut out).expect("000 prints what document 01 accepts");
            let mut room = [0; 400];
            let came = print_listing(&listing, mode, &mut room);
            assert_eq!((came >> 32, &room[..came as u32 as usize]), (0, &out.0[..]));
            // each line ends in a newline, and no line has ` / `
            let text = String::from_utf8(out.0).expect("lines are ASCII");
            text.split_terminator('\n').collect::<Vec<_>>().join(" / ")
        });
        if lines[0] == lines[1] {
            self.listed("0 1", &parts.join(" "), 0, &lines[0]);
        } else {
            self.listed("0", &parts.join(" "), 0, &lines[0]);
            self.listed("1", &parts.join(" "), 0, &lines[1]);
        }
    }

    fn listed(&mut self, modes: &str, bytes: &str, answer: u64, lines: &str) {
        self.text.push_str(format!("listing {modes} | {bytes} | {answer} | {lines}").trim_end());
        self.text.push('\n');
    }
}
