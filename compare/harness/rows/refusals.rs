//! Answers 1 to 5 and 7, each with its smallest body, and two faults at a time.

use super::*;

/// Answer 2.
pub(super) fn lengths(rows: &mut Rows) {
    rows.section("Answer 2: under 14 bytes, or not 14 and five for each operand that the count says");
    let nop = op("nop", &[]).body();
    for length in [0, 1, 13] {
        rows.body(&nop[..length]);
    }
    rows.body(&[&nop[..], &[0]].concat());
    rows.body(&[&nop[..], &[3, 0, 0, 0, 0]].concat());
    for count in [1, 5, 255] {
        rows.body(&[&nop[..13], &[count]].concat());
    }
    let four = op("nop", &[I8; 4]).body();
    rows.body(&four[..33]);
    rows.body(&[&four[..], &[0]].concat());
}

/// Answer 3.
pub(super) fn fields(rows: &mut Rows) {
    rows.section("Answer 3: the smallest body is 14 zeros, whose length is 0; lengths 0 and 16; flags of bits 6 and 7; opcodes from 176 up");
    rows.body(&[0; 14]);
    for record in [
        op("nop", &[]).long(0),
        op("nop", &[]).long(16),
        op("nop", &[]).long(255),
        op("nop", &[]).flags(64),
        op("nop", &[]).flags(128),
        Record { opcode: 176, ..op("nop", &[]) },
        Record { opcode: 256, ..op("nop", &[]) },
        Record { opcode: 65535, ..op("nop", &[]) },
    ] {
        rows.record(record);
    }
    rows.section("Answer 3: a count of 5 with five operands");
    let mut five = op("nop", &[I8; 4]).body();
    five[13] = 5;
    rows.body(&[&five[..], &[3, 0, 0, 0, 0]].concat());
    rows.section("Answer 3: kinds and registers that do not exist");
    for slot in [bytes(0, 0, 0, 0, 0), bytes(23, 0, 0, 0, 0), r(30), m(31), r(64), m(255)] {
        rows.record(op("nop", &[slot]));
    }
    rows.section("Answer 3: of each kind and each byte of an operand the least number that it may not hold; a byte that it does not use is 0");
    for kind in 1..=16 {
        let good = match kind {
            13..=16 => bytes(kind, 0, 0, 0, 1),
            _ => bytes(kind, 0, 0, 0, 0),
        };
        let segment = if kind < 9 { 1 } else { 7 };
        let first = match kind {
            1 | 2 => 30,
            3..=10 => 1,
            _ => 16,
        };
        let second = if kind < 15 { 1 } else { 16 };
        rows.record(op("nop", &[Slot { segment, ..good }]));
        rows.record(op("nop", &[Slot { first, ..good }]));
        rows.record(op("nop", &[Slot { second, ..good }]));
        for scale in if kind < 13 { &[1][..] } else { &[0, 3, 16] } {
            rows.record(op("nop", &[Slot { scale: *scale, ..good }]));
        }
    }
    rows.section("Answer 3: also of an operand that is not printed");
    for place in 1..4 {
        let mut slots = [I8, I8, I8, I8];
        slots[place] = r(30);
        rows.record(op("jmp", &slots));
    }
}

/// Answer 4, arm by arm, the smallest body first.
pub(super) fn shapes(rows: &mut Rows) {
    rows.section("Answer 4: an operand that is printed or tested is at or past the count");
    for name in ["hreset", "lsl", "prefetchnta", "clwb", "sgdt", "lidt", "lss", "invlpgb", "scas", "stos", "lods", "incssp"] {
        rows.record(op(name, &[]));
    }
    for name in ["wrss", "wruss", "pblendvb", "sha256rnds2", "lea", "fcom", "ficomp", "fadd", "fcomip", "fbld", "fucomp", "fbstp", "fisttp"] {
        rows.record(op(name, &[]));
    }
    for (name, slot) in [
        ("lss", r(EAX)),
        ("invlpgb", r(EAX)),
        ("lods", at(ESI)),
        ("wrss", r(EAX)),
        ("pblendvb", r(XMM0)),
        ("lea", r(EAX)),
        ("fcom", m(ST0 + 1)),
        ("fadd", r(ST0)),
        ("fld", m(ST0)),
    ] {
        rows.record(op(name, &[slot]).size(4));
    }
    rows.record(op("invlpgb", &[r(EAX), r(EDX)]));
    rows.section("Answer 4: LSL, operand 0 no register, or its rewritten source none");
    for slots in [[at(ECX), r(EAX)], [U8, r(EAX)], [r(ES), m(ESI)], [r(GS), m(EDI)], [r(ES), m(SI)], [r(ES), m(YMM0 + 6)]] {
        rows.record(op("lsl", &slots).size(4));
    }
    rows.section("Answer 4: no memory where the arm wants memory");
    for name in ["sgdt", "sidt", "lgdt", "lidt", "scas", "stos"] {
        rows.record(op(name, &[m(EAX)]).size(4));
    }
    rows.record(op("sgdt", &[U8, at(ECX)]).size(6));
    rows.record(op("lss", &[r(EAX), m(ECX)]).size(4));
    rows.record(op("lss", &[at(EAX), I32]).size(6));
    rows.record(op("lods", &[at(ESI), r(AL)]).size(1));
    rows.section("Answer 4: no bank 0 register where the arm wants one");
    for slot in [r(AX), m(AL), r(ES), at(EAX), U32] {
        rows.record(op("incssp", &[slot]).size(4));
        rows.record(op("wrss", &[r(EAX), slot]).size(4));
    }
    rows.record(op("wruss", &[r(EAX), r(AX)]));
    rows.section("Answer 4: FADD and its like, operand 1 no memory and neither operand of kind 1");
    for slots in [[m(ST0), m(ST0 + 1)], [at(EAX), m(ST0)], [U8, U8], [at(EAX), I8]] {
        rows.record(op("fadd", &slots).size(4));
    }
    rows.record(op("fcomip", &[m(ST0), m(ST0), r(ST0)]));
    rows.section("Answer 4: FBLD and its like, operand 1 neither memory nor of kind 2");
    for slots in [[m(ST0), r(ST0)], [m(ST0), U8]] {
        rows.record(op("fbld", &slots));
    }
    rows.record(op("fld", &[m(ST0), r(ST0)]));
}

/// Answer 5, arm by arm.
pub(super) fn sizes(rows: &mut Rows) {
    rows.section("Answer 5: the general path; 6 and 10 have no label there");
    for size in [0, 3, 5, 6, 7, 9, 10, 47, 49, 62, 65, 128, 255] {
        rows.record(op("mov", &[at(ECX)]).size(size));
    }
    for slots in [&[r(EAX), at(ECX)][..], &[r(EAX), r(EAX), dword()], &[r(EAX), r(EAX), r(EAX), word()]] {
        rows.record(op("mov", slots));
    }
    rows.section("Answer 5: the opcodes with a rule of their own for labels");
    for record in [
        op("movq", &[r(MM0), at(ECX)]).size(7),
        op("cvtsd2si", &[r(EAX), at(ECX)]).size(6),
        op("jmpf", &[r(EAX), at(ECX)]).size(6),
        op("callf", &[at(EAX), at(ECX)]).size(6),
        op("callf", &[at(EAX)]).size(10),
        op("lds", &[at(ECX), r(EAX)]).size(6),
        op("lgs", &[r(EAX), at(ECX)]).size(10),
        op("movs", &[at(EDI), at(ESI)]).size(12),
        op("cmps", &[at(EDI), at(ESI)]).size(6),
        op("jmp", &[at(EAX)]).size(6),
        op("jmp", &[U8, at(EAX)]),
        op("xbegin", &[at(EAX)]).size(3),
        op("xbegin", &[I8, at(EAX)]),
    ] {
        rows.record(record);
    }
    rows.section("Answer 5: the arms that ask for a label");
    for record in [
        op("lsl", &[r(EAX), at(ECX)]).size(6),
        op("lss", &[r(EAX), at(ECX)]).size(0),
        op("lss", &[r(EAX), at(ECX)]).size(2),
        op("lss", &[r(EAX), at(ECX)]).size(8),
        op("lss", &[r(EAX), at(ECX)]).size(48),
        op("nop", &[at(EAX)]).size(3),
        op("scas", &[at(EDI)]).size(0),
        op("scas", &[at(EDI)]).size(63),
        op("stos", &[at(EDI)]).size(10),
        op("lods", &[r(AL), at(ESI)]).size(48),
        op("lods", &[r(AL), at(ESI)]).size(6),
        op("incssp", &[r(EAX), at(ECX)]).size(5),
        op("wrss", &[at(ECX), r(EAX)]).size(6),
        op("pblendvb", &[r(XMM0), at(EAX)]).size(63),
        op("pblendvb", &[r(XMM0), at(EAX)]).size(10),
        op("aam", &[at(EAX)]).size(3),
        op("fcom", &[r(ST0), at(EAX)]).size(10),
        op("fcom", &[r(ST0), at(EAX)]).size(48),
        op("fadd", &[r(ST0), at(EAX)]).size(10),
        op("fadd", &[r(ST0), at(EAX)]).size(63),
        op("fbld", &[r(ST0), at(EAX)]).size(6),
        op("fld", &[r(ST0), at(EAX)]).size(63),
        op("fst", &[at(EAX)]).size(6),
        op("fbstp", &[at(EAX)]).size(48),
    ] {
        rows.record(record);
    }
}

/// "The lowest number that applies is given."
pub(super) fn order(rows: &mut Rows) {
    rows.section("Two faults: 2 before 3, 3 before 4, 3 before 5, 4 before 5");
    let wrong = op("hreset", &[]).flags(64).long(0);
    rows.body(&wrong.body()[..13]);
    rows.body(&[&wrong.body()[..], &[0]].concat());
    for record in [
        wrong,
        op("lsl", &[r(30)]),
        op("mov", &[at(EAX)]).long(0),
        op("mov", &[r(30), at(EAX)]),
        op("lss", &[r(EAX), m(ECX)]).size(2),
        op("lods", &[at(ESI), r(AL)]).size(3),
        op("incssp", &[at(EAX)]).size(3),
        op("wrss", &[at(EAX), r(AX)]).size(3),
    ] {
        rows.record(record);
    }
}

/// Answer 1, before every other.
pub(super) fn modes(rows: &mut Rows) {
    rows.section("Answer 1: numbers that are no mode, and before every other answer");
    let refused = [
        op("nop", &[]).body(),
        Vec::new(),
        op("nop", &[]).long(0).body(),
        op("hreset", &[]).body(),
        op("mov", &[at(EAX)]).body(),
    ];
    for body in &refused {
        rows.refused_modes(body);
    }
}

/// Answer 2 of extended records: "reckons by the stored kinds and opcode".
pub(super) fn vector_lengths(rows: &mut Rows) {
    rows.section("Answer 2: a vector opcode without the two bytes after its operands, with one of them, with three");
    let vector = op("vaddpd", &[]).body();
    for length in [14, 15] {
        rows.body(&vector[..length]);
    }
    rows.body(&[&vector[..], &[0]].concat());
    rows.body(&op("vpscatterdd", &[]).body()[..14]);
    rows.body(&op("vpscatterdd", &[at(EAX), r(K0), r(EAX)]).body()[..29]);
    rows.section("Answer 2: the two bytes after a record that is not extended: of the first opcode, of the last before the vector ones, of numbers that are none");
    for opcode in [0, 153, 176, 256 + 154] {
        rows.body(&[&Record { opcode, ..op("nop", &[]) }.body()[..], &[0, 0]].concat());
    }
    rows.section("Answer 2: a masked operand has six bytes, be it shown or not, and the two bytes follow the operands");
    let nop = op("nop", &[masked(1, at(EAX))]).body();
    for length in [18, 19, 20, 21] {
        rows.body(&nop[..length]);
    }
    rows.body(&[&nop[..], &[0]].concat());
    let hidden = op("nop", &[I8, I8, I8, masked(1, at(EAX))]).body();
    rows.body(&hidden[..hidden.len() - 2]);
    rows.body(&hidden[..hidden.len() - 3]);
    rows.section("Answer 2: also where the count is above 4, and the fifth operand is masked");
    let mut five = op("nop", &[I8; 4]).body();
    five[13] = 5;
    five.extend([17, 0, 0, 0, 0]);
    rows.body(&five);
    five.extend([73, 0]);
    rows.body(&five);
    rows.section("Answer 2: kinds 0 and 23 have five bytes");
    for kind in [0, 23] {
        rows.body(&[&op("nop", &[bytes(kind, 0, 0, 0, 0)]).body()[..], &[0]].concat());
    }
}

/// Answer 3 of extended records.
pub(super) fn vector_fields(rows: &mut Rows) {
    rows.section("Answer 3: length bits above 3, tails above 2, flag bit 7");
    for record in [
        op("vaddpd", &[]).end(4, 0),
        op("vaddpd", &[]).end(255, 0),
        op("vaddpd", &[]).end(0, 3),
        op("vaddpd", &[]).end(0, 255),
        op("vaddpd", &[]).flags(128),
        op("vaddpd", &[]).flags(192),
        op("inc", &[masked(1, at(EAX))]).size(4).end(4, 0),
        op("inc", &[masked(1, at(EAX))]).size(4).end(0, 3),
    ] {
        rows.record(record);
    }
    rows.section("Answer 3: an opcode past the last with a masked operand; a count above 4 with one");
    rows.record(Record { opcode: 176, ..op("nop", &[masked(1, at(EAX))]) });
    let mut five = op("nop", &[I8; 4]).body();
    five[13] = 5;
    rows.body(&[&five[..], &[17, 0, 0, 0, 0, 73, 0, 0]].concat());
    rows.section("Answer 3: a mask that is k0, or no mask");
    for kind in 17..=22 {
        let good = masked(1, if kind < 19 { bytes(kind - 6, 0, 0, 0, 0) } else { bytes(kind - 6, 0, 0, 0, 1) });
        rows.record(op("inc", &[Slot { mask: K0, ..good }]).size(4));
        rows.record(op("inc", &[Slot { mask: K0 + 8, ..good }]).size(4));
    }
    for mask in [0, 1, 71, 255] {
        rows.record(op("inc", &[Slot { mask, ..masked(1, at(EAX)) }]).size(4));
    }
    rows.section("Answer 3: of each masked kind and each byte the least number that it may not hold");
    for kind in 17..=22 {
        let good = masked(1, if kind < 19 { bytes(kind - 6, 0, 0, 0, 0) } else { bytes(kind - 6, 0, 0, 0, 1) });
        rows.record(op("inc", &[Slot { segment: 7, ..good }]).size(4));
        rows.record(op("inc", &[Slot { first: 16, ..good }]).size(4));
        rows.record(op("inc", &[Slot { second: if kind < 21 { 1 } else { 16 }, ..good }]).size(4));
        rows.record(op("inc", &[Slot { scale: if kind < 19 { 1 } else { 0 }, ..good }]).size(4));
    }
    rows.section("Answer 3: registers past bank 9, and of banks 8 and 9 in records that are not extended");
    for register in [80, 255, 30] {
        rows.record(op("vaddpd", &[r(register)]));
    }
    for register in [ZMM0, ZMM0 + 7, K0, K0 + 7] {
        rows.record(op("mov", &[r(register)]));
        rows.record(op("mov", &[r(EAX), m(register)]));
    }
    rows.section("Answer 3: a vector register as index, but for operand 0 of the VPSCATTERs, and there in a masked kind; never as base");
    let (k1, zmm) = (r(K0 + 1), r(ZMM0));
    for slot in [index(XMM0, 1), index_near(ZMM0, 2), both(EAX, YMM0, 4), both_near(EAX, ZMM0 + 7, 8)] {
        rows.record(op("vaddpd", &[slot]).size(8));
        rows.record(op("mov", &[slot, masked(1, at(EAX))]).size(8));
        rows.record(op("vpscatterdd", &[masked(1, slot), k1, zmm]));
        rows.record(op("vpscatterqq", &[at(EAX), k1, slot]));
    }
    for slot in [at(XMM0), near(ZMM0), both(XMM0, EAX, 1), both_near(ZMM0, EAX, 1), index(XMM0 - 1, 1), both(EAX, K0, 1)] {
        rows.record(op("vpscatterdd", &[slot, k1, zmm]));
    }
    rows.section("Answer 3: flag bit 6 in a record that is not extended, whatever it shows");
    rows.record(op("mov", &[r(EAX), at(ECX)]).size(4).flags(BROADCAST));
    rows.record(op("rdpru", &[]).flags(BROADCAST));
}

/// Answer 4 of the VPSCATTER arms.
pub(super) fn vector_shapes(rows: &mut Rows) {
    let (k1, zmm) = (m(K0 + 1), r(ZMM0));
    rows.section("Answer 4: a VPSCATTER of fewer than three operands");
    for slots in [&[][..], &[at(EAX)], &[at(EAX), k1]] {
        for name in ["vpscatterdd", "vpscatterqq"] {
            rows.record(op(name, slots));
        }
    }
    rows.section("Answer 4: a VPSCATTER whose operand 0 is no memory, or has a mask of its own");
    for slot in [zmm, U8, masked(1, at(EAX)), masked(2, both_near(EAX, ECX, 4))] {
        for name in ["vpscatterdd", "vpscatterqd", "vpscatterdq", "vpscatterqq"] {
            rows.record(op(name, &[slot, k1, zmm]));
        }
    }
    rows.section("Answer 4: a VPSCATTER whose operand 1 is no register of bank 9");
    for slot in [zmm, r(YMM0 + 7), m(EAX), at(EAX), masked(1, at(EAX)), U8] {
        rows.record(op("vpscatterdd", &[at(EAX), slot, zmm]));
        rows.record(op("vpscatterdq", &[at(EAX), slot, zmm]));
    }
    rows.section("Answer 4: banks 8 and 9 are not bank 0");
    for register in [ZMM0, K0] {
        rows.record(op("incssp", &[r(register), masked(1, at(EAX))]).size(4));
        rows.record(op("wrss", &[masked(1, at(EAX)), r(register)]).size(4));
    }
}

/// Answer 5 of masked operands and of the vector opcodes.
pub(super) fn vector_sizes(rows: &mut Rows) {
    rows.section("Answer 5: a masked operand calls for its label, and so do the vector opcodes");
    for record in [
        op("mov", &[r(EAX), masked(1, at(ECX))]).size(3),
        op("lods", &[r(AL), masked(1, at(ESI))]).size(6),
        op("scas", &[masked(1, at(EDI))]).size(63),
        op("lss", &[r(EAX), masked(1, at(ECX))]).size(8),
        op("fld", &[r(ST0), masked(1, at(EAX))]).size(6),
        op("vaddpd", &[r(ZMM0), at(ECX)]).size(3),
        op("vcvtpd2ps", &[r(XMM0), at(ECX)]),
        op("vfpclassps", &[r(K0), at(ECX)]).size(6),
        op("vcvtps2qq", &[at(ECX)]).size(10),
    ] {
        rows.record(record);
    }
}

/// Answer 7.
pub(super) fn counts(rows: &mut Rows) {
    rows.section("Answer 7: a printed count above 16");
    for record in [
        op("vaddpd", &[r(ZMM0), at(ECX)]).size(1),
        op("vaddpd", &[r(ZMM0), at(ECX)]).size(2),
        op("vaddpd", &[r(YMM0), at(ECX)]).size(1),
        op("vaddpd", &[m(YMM0 + 7), masked(7, near(ECX))]).size(1),
        op("vaddpd", &[r(EAX), r(ZMM0), word()]).size(2),
        op("vaddpd", &[r(EAX), at(EAX), r(ZMM0), at(ECX)]).size(2),
        op("mov", &[r(ZMM0), masked(1, at(ECX))]).size(2),
        op("lsl", &[r(ZMM0), masked(1, at(ECX))]).size(2),
        op("incssp", &[r(EAX), r(ZMM0), masked(1, at(ECX))]).size(1),
        op("wruss", &[r(EAX), r(EAX), r(ZMM0), masked(1, at(ECX))]).size(1),
        op("movs", &[r(ZMM0), masked(1, at(ECX))]).size(2),
        op("jmp", &[r(ZMM0), masked(1, at(ECX))]).size(2),
        op("aam", &[r(ZMM0), masked(1, at(ECX))]).size(2),
    ] {
        rows.record(Record { flags: BROADCAST, ..record });
    }
}

/// "after 5 and before room", and the other answers before it.
pub(super) fn vector_order(rows: &mut Rows) {
    rows.section("Two faults: 2 before 3, 3 before 4, 3 before 5, 4 before 7, 5 before 7");
    let wrong = op("vaddpd", &[r(80)]).flags(128).end(4, 3).body();
    rows.body(&wrong[..wrong.len() - 1]);
    for record in [
        op("vpscatterdd", &[at(EAX)]).end(4, 0),
        op("vpscatterdd", &[Slot { mask: K0, ..masked(1, at(EAX)) }]),
        op("vaddpd", &[r(ZMM0), at(ECX)]).end(0, 3).flags(BROADCAST),
        op("wrss", &[masked(1, at(EAX)), r(ZMM0), at(ECX)]).size(1).flags(BROADCAST),
        op("lsl", &[at(EAX), r(ZMM0), masked(1, at(ECX))]).size(1).flags(BROADCAST),
        op("vaddpd", &[r(ZMM0), at(ECX)]).size(3).flags(BROADCAST),
        op("vaddpd", &[r(ZMM0), at(ECX)]).flags(BROADCAST),
        op("lss", &[r(ZMM0), masked(1, at(ECX))]).size(1).flags(BROADCAST),
    ] {
        rows.record(record);
    }
    rows.section("Answer 1 before answer 7");
    let counted = op("vaddpd", &[r(ZMM0), at(ECX)]).size(1).flags(BROADCAST).body();
    rows.refused_modes(&counted);
}
