//! Branches, the general path, names, labels and the string instructions.

use super::*;

/// "Branches in two modes", with W-202's words for mode 1.
pub(super) fn branches(rows: &mut Rows) {
    rows.section("Relative branches of kind 3: distance and length added in 8 bits in mode 0; whole, with `short`, in mode 1");
    let short = |distance: i64| op("jmp", &[I8]).imm(distance).long(2);
    for distance in [125, 126, 127, 128, -128, -129, -2, -3, 0, 7, 8, 32767, 32768, -32768, 0x1234567E] {
        rows.record(short(distance));
    }
    for distance in [112, 113, 127, -128, -15] {
        rows.record(short(distance).long(15));
    }
    rows.section("Relative branches of kind 5: in 32 bits; `near ptr` for sums from 128 to 255 in mode 0, at every sum in mode 1");
    let long = |distance: i64| op("jmp", &[I32]).imm(distance).long(5);
    for distance in [
        20, 122, 123, 127, 128, 250, 251, -128, -129, -5, -6, 4, 5, 32767, 32768, -32768, -32769, 2147483642, 2147483643, 2147483647,
        -2147483648,
    ] {
        rows.record(long(distance));
    }
    rows.section("Each branch, of either kind; operands after a branch are dropped");
    let all: Vec<&str> = (0..22).map(name_of).collect();
    rows.arm(
        &all,
        &[
            op("jmp", &[I8, m(EAX)]).imm(0x7E).long(2),
            op("jmp", &[I32]).imm(0x9A).long(6),
            op("jmp", &[I32, r(EAX)]).imm(0x14).long(5),
        ],
        &[
            op("jmp", &[I8]).imm(-7).long(2),
            op("jmp", &[I8, m(EAX), at(ECX)]).imm(0x18).long(2).flags(LOCK),
            op("jmp", &[I32, at(EAX), I8, r(EDX)]).imm(-0x1000005).long(6),
        ],
    );
    rows.section("CALL, which has no short form: in mode 1 no word, whatever the kind and the sum");
    for distance in [125, 126, 127, -2, -128] {
        rows.record(op("call", &[I8]).imm(distance).long(2));
    }
    for distance in [-6, 20, 122, 123, 250, 251, 2147483647] {
        rows.record(op("call", &[I32]).imm(distance).long(5));
    }
    rows.section("Branches with another operand 0, and JMPF and CALLF, which are none: the general path");
    for record in [
        op("jmp", &[]),
        op("jmp", &[r(EAX)]),
        op("call", &[m(EAX), I8]).imm(5),
        op("call", &[seg(SEG_FS, index(EAX, 4))]).size(4),
        op("jecxz", &[I16]).imm(-1),
        op("loop", &[U8]).imm(0x80),
        op("jo", &[U16]).imm(0xABCD),
        op("jz", &[U32]).imm(0x80000000),
        op("jg", &[dword()]).size(4).disp(0x1234),
        op("jmp", &[U32]).imm(20).long(5),
        op("call", &[U32]).imm(123).long(5),
        op("jmpf", &[I32]).imm(123).long(5),
        op("callf", &[I8]).imm(126).long(2),
    ] {
        rows.record(record);
    }
    rows.section("XBEGIN: a branch with kind 5 alone, with no word in mode 1");
    for record in [
        op("xbegin", &[I32]).long(6),
        op("xbegin", &[I32]).imm(121).long(6).flags(REP),
        op("xbegin", &[I32, r(EAX)]).imm(122).long(6),
        op("xbegin", &[I32]).imm(249).long(6),
        op("xbegin", &[I32]).imm(250).long(6),
        op("xbegin", &[I32]).imm(-7).long(6),
        op("xbegin", &[I8]).imm(126).long(2),
        op("xbegin", &[I8]).imm(-1).long(2),
        op("xbegin", &[]),
        op("xbegin", &[seg(SEG_GS, near(EDI))]).size(4).disp(16),
    ] {
        rows.record(record);
    }
}

/// Numbers, brackets, labels, segments, counts and prefixes, on the general path.
pub(super) fn general(rows: &mut Rows) {
    rows.section("Displacements");
    for disp in [0, 9, 10, 15, 16, -1, -9, -10, -160, 0x9F, 0xA0, 0x7FFFFFFF, -0x7FFFFFFF, -0x80000000] {
        rows.record(op("mov", &[r(EAX), near(EAX)]).size(4).disp(disp));
    }
    rows.section("Immediates: each kind takes the low bits of imm, and signed ones are extended to 32 bits");
    for (kind, imms) in [
        (I8, &[-1, 0, 9, 10, 0x17F, 0x80][..]),
        (I16, &[-1, 0x7FFF, 0x8000, 0x1000A]),
        (I32, &[-1, 0x7FFFFFFF, -0x80000000, 10]),
        (U8, &[-1, 0xFF80, 9, 0xA]),
        (U16, &[-1, 0x9ABCD, 0xFFF]),
        (U32, &[-1, -0x80000000, 0x10]),
    ] {
        for &imm in imms {
            rows.record(op("push", &[kind]).imm(imm));
        }
    }
    rows.section("Absolutes: 4 or 8 digits of disp, always h");
    for disp in [0xABCD, 0xABC, 0, 0x9FFF, 0x1A000, -1] {
        rows.record(op("mov", &[r(EAX), word()]).size(4).disp(disp));
    }
    for disp in [0xABCDEF0, -0x60000000, 0, 0x9FFFFFFF] {
        rows.record(op("mov", &[r(EAX), dword()]).size(4).disp(disp));
    }
    rows.section("Brackets: each memory kind as operand 0 and as operand 1, scale 1 without `* 1`");
    for slot in BRACKETS.into_iter().chain([word(), dword()]) {
        rows.record(op("add", &[slot, r(EDX)]).size(4).disp(-16));
        rows.record(op("add", &[r(EDX), seg(SEG_GS, slot)]).size(4).disp(18));
    }
    rows.section("Scales");
    for scale in [1, 2, 4, 8] {
        rows.record(op("or", &[index(ECX, scale), both_near(EDX, EBP, scale)]).size(1).disp(8));
    }
    rows.section("Segments, of operand 0 and of those after it");
    for segment in SEG_ES..=SEG_GS {
        let other = segment % 6 + 1;
        rows.record(op("cmp", &[seg(segment, at(EAX)), seg(other, at(ECX))]).size(2));
        rows.record(op("test", &[r(EAX), seg(segment, word()), seg(other, dword())]).size(2).disp(4));
    }
    rows.section("Labels by mem_size; none for 63 and 48");
    for size in [1, 2, 4, 8, 16, 32, 64, 63, 48] {
        rows.record(op("inc", &[seg(SEG_FS, at(ECX))]).size(size));
        rows.record(op("xor", &[r(EAX), at(ECX), near(EDX)]).size(size).disp(1));
    }
    rows.section("8 is `mmword` where an operand is an mm, xmm or ymm register, in any place; st registers do not count");
    for register in [MM0, MM0 + 7, XMM0, XMM0 + 7, YMM0, YMM0 + 7, ST0, ST0 + 7, GS, BH] {
        rows.record(op("movaps", &[r(register), at(EDX)]).size(8));
        rows.record(op("mov", &[at(EDX), r(EAX), near(EBX), m(register)]).size(8));
    }
    rows.section("Counts 0 to 4; no size is asked of what is no memory");
    for slots in [&[][..], &[m(ECX)], &[r(EAX), I8], &[r(EAX), m(ECX), U8], &[r(EAX), I8, seg(SEG_GS, near(EDX)), at(BX)]] {
        rows.record(op("and", slots).size(if slots.len() == 4 { 4 } else { 0 }).imm(1).disp(1));
    }
    rows.section("Prefix words: xacquire, xrelease, lock; rep only where it can be, operand size nowhere but in PUSHF");
    for flags in [XACQUIRE, XRELEASE, LOCK, REP, REPNZ, OPERAND_SIZE, XACQUIRE | XRELEASE | LOCK, 63] {
        rows.record(op("sub", &[at(EDI), r(EAX)]).size(4).flags(flags));
    }
    rows.section("Lengths 1 and 15");
    for length in [1, 15] {
        rows.record(op("dec", &[m(ECX)]).long(length));
    }
    rows.section("Each opcode of the general path");
    let all: Vec<&str> = (23..42).map(name_of).collect();
    rows.arm(
        &all,
        &[
            op("mov", &[r(XMM0 + 1), seg(SEG_FS, at(ECX))]).size(8).flags(OPERAND_SIZE),
            op("mov", &[r(EAX), seg(SEG_DS, at(ECX))]).size(8).imm(10),
        ],
        &[
            op("mov", &[both_near(EBP, EDI, 2), r(AL)]).size(1).disp(-8),
            op("mov", &[seg(SEG_FS, at(ECX))]).size(63),
            op("mov", &[m(ECX), I32]).imm(0xABCDEF),
        ],
    );
}

/// Register names, each in both register kinds and, of banks 0 and 1, in brackets.
pub(super) fn names(rows: &mut Rows) {
    rows.section("Register names, by byte");
    let all: Vec<u8> = (0..64).filter(|byte| ![30, 31].contains(byte)).collect();
    for (k, four) in all.chunks(4).enumerate() {
        let slots: Vec<Slot> = four.iter().map(|&byte| if k % 2 == 0 { r(byte) } else { m(byte) }).collect();
        rows.record(op("mov", &slots));
    }
    rows.section("Register names in brackets, as base and as index");
    for base in (0..16).step_by(2) {
        let next = base + 1;
        rows.record(op("mov", &[at(base), index(next, 2), both(base, next, 4), both_near(next, base, 1)]).size(4));
    }
}

/// The opcodes for which the general path has a rule for labels.
pub(super) fn labels(rows: &mut Rows) {
    rows.section("Never `mmword`: MOVQ, MOVLPS, MOVHPS, MOVLPD, MOVHPD, MOVNTSD, CVTSI2SS, CVTSI2SD, PEXTRQ, PINSRQ");
    rows.arm(
        &["movq", "movlps", "movhps", "movlpd", "movhpd", "movntsd", "cvtsi2ss", "cvtsi2sd", "pextrq", "pinsrq"],
        &[op("movq", &[r(XMM0 + 1), seg(SEG_DS, at(ECX))]).size(8)],
        &[
            op("movq", &[seg(SEG_ES, at(ECX)), r(MM0 + 1), I8]).size(8).imm(1),
            op("movq", &[r(YMM0), at(ECX)]).size(4),
            op("movq", &[r(XMM0), m(XMM0 + 2)]),
        ],
    );
    rows.section("Always `mmword`: CVTSD2SI, CVTTSD2SI");
    rows.arm(
        &["cvtsd2si", "cvttsd2si"],
        &[op("cvtsd2si", &[r(EAX), at(ECX)]).size(8)],
        &[
            op("cvtsd2si", &[seg(SEG_GS, at(ECX)), at(EDX)]).size(8),
            op("cvtsd2si", &[r(EAX), seg(SEG_GS, at(ECX))]).size(8),
            op("cvtsd2si", &[r(EAX), at(ECX)]).size(4),
            op("cvtsd2si", &[r(EAX), m(XMM0 + 1)]),
        ],
    );
    rows.section("JMPF, CALLF: 6 is `fword` in operand 0");
    rows.arm(
        &["jmpf", "callf"],
        &[op("jmpf", &[at(EAX)]).size(6), op("jmpf", &[I32, seg(SEG_DS, at(EAX)), r(XMM0)]).imm(5).size(8)],
        &[
            op("jmpf", &[seg(SEG_CS, at(EAX))]).size(4),
            op("jmpf", &[seg(SEG_DS, dword())]).size(6).disp(0x12345678),
            op("jmpf", &[both(BP, SI, 1), r(XMM0)]).size(8),
            op("jmpf", &[r(EAX)]),
            op("jmpf", &[]),
        ],
    );
    rows.section("LDS, LES, LFS, LGS: 6 is `fword` after operand 0");
    rows.arm(
        &["lds", "les", "lfs", "lgs"],
        &[op("lds", &[r(EAX), at(ECX)]).size(6), op("lds", &[r(XMM0), seg(SEG_DS, at(ECX))]).size(8)],
        &[
            op("lds", &[r(AX), at(ECX)]).size(4),
            op("lds", &[r(EAX), seg(SEG_SS, at(ECX))]).size(6),
            op("lds", &[r(EAX), r(ECX), I8, at(EDX)]).size(6).imm(3),
        ],
    );
}

/// The string instructions.
pub(super) fn strings(rows: &mut Rows) {
    rows.section("MOVS: ds is shown in operand 0 alone");
    for record in [
        op("movs", &[seg(SEG_ES, at(EDI)), seg(SEG_DS, at(ESI))]).size(1),
        op("movs", &[seg(SEG_DS, at(EDI)), seg(SEG_DS, at(ESI))]).size(1),
        op("movs", &[seg(SEG_ES, at(EDI)), seg(SEG_FS, at(ESI))]).size(4).flags(REP),
        op("movs", &[seg(SEG_ES, at(DI)), at(SI)]).size(2).flags(REPNZ),
        op("movs", &[at(DI), seg(SEG_DS, at(SI)), seg(SEG_DS, at(BX)), seg(SEG_ES, at(BP))]).size(2).flags(REP | REPNZ),
        op("movs", &[r(MM0 + 1), seg(SEG_DS, at(ESI))]).size(8),
        op("movs", &[]),
    ] {
        rows.record(record);
    }
    rows.section("MOVS: each flag alone");
    for flags in [XACQUIRE, XRELEASE, LOCK, REP, REPNZ, OPERAND_SIZE] {
        rows.record(op("movs", &[]).flags(flags));
    }
    rows.section("The longest line");
    rows.record(op("movs", &[seg(SEG_FS, both_near(EAX, ECX, 8)); 4]).size(16).disp(-0x80000000).flags(XACQUIRE | XRELEASE | LOCK | REPNZ));
    rows.section("CMPS, INS, OUTS: the general path after rep");
    rows.arm(
        &["cmps", "ins", "outs"],
        &[
            op("cmps", &[seg(SEG_DS, at(ESI)), seg(SEG_DS, at(EDI))]).size(8).flags(REPNZ),
            op("cmps", &[r(MM0), seg(SEG_DS, at(ESI)), r(DX)]).size(8),
        ],
        &[
            op("cmps", &[at(ESI), seg(SEG_ES, at(EDI))]).size(4).flags(REPNZ),
            op("cmps", &[seg(SEG_ES, at(EDI)), r(DX)]).size(1).flags(REP),
            op("cmps", &[r(DX), seg(SEG_GS, at(ESI))]).size(2),
            op("cmps", &[r(DX), at(ESI)]).size(4).flags(REP | REPNZ),
        ],
    );
    rows.section("SCAS, STOS: operand 0 alone, with its segment, and never `mmword`");
    rows.arm(
        &["scas", "stos"],
        &[op("scas", &[seg(SEG_ES, at(EDI)), r(AL)]).size(1).flags(REPNZ), op("scas", &[at(EDI), r(MM0)]).size(8)],
        &[
            op("scas", &[at(EDI)]).size(4).flags(REPNZ),
            op("scas", &[at(EDI)]).size(4),
            op("scas", &[seg(SEG_DS, at(DI)), r(AX)]).size(2).flags(REP),
        ],
    );
    rows.section("LODS: operand 1 alone, without its segment");
    for record in [
        op("lods", &[r(AL), seg(SEG_FS, at(ESI))]).size(1),
        op("lods", &[r(EAX), seg(SEG_DS, at(ESI))]).size(4).flags(REP),
        op("lods", &[at(EDI), at(ESI), r(MM0)]).size(8).flags(REPNZ),
    ] {
        rows.record(record);
    }
}
