//! W-204: masks, banks 8 and 9, the VPSCATTER arms, `{1toN}` and tails.

use super::*;

/// Each masked kind, and the mask in every arm that shows the operand.
pub(super) fn masks(rows: &mut Rows) {
    rows.section("Masks: each masked kind as operand 0 and as operand 1, the mask right after the bracket");
    for (k, slot) in BRACKETS.into_iter().enumerate() {
        let mask = 1 + k as u8 % 7;
        rows.record(op("add", &[masked(mask, slot), r(EDX)]).size(4).disp(-16));
        rows.record(op("add", &[r(EDX), seg(SEG_GS, masked(mask, slot))]).size(4).disp(18));
    }
    rows.section("Masks: each mask, and registers of bank 1 in the bracket");
    let with = |first: u8| [0, 1, 2, 3].map(|k| masked((first + k - 1) % 7 + 1, both(BX, SI, 1)));
    rows.record(op("mov", &with(1)).size(2));
    rows.record(op("mov", &with(5)).size(2));
    rows.section("Masks: labels and segments as without one; none for 63 and 48; 8 by the registers of banks 5 to 7");
    for size in [1, 2, 4, 8, 16, 32, 64, 63, 48] {
        rows.record(op("inc", &[seg(SEG_FS, masked(1, at(ECX)))]).size(size));
    }
    for register in [MM0, XMM0, YMM0, ZMM0, K0] {
        rows.record(op("movaps", &[r(register), masked(1, at(EDX))]).size(8));
    }
    rows.section("Masks: in the arms of the general path");
    for record in [
        op("jmp", &[masked(1, at(EAX))]).size(4),
        op("xbegin", &[masked(2, near(EAX))]).size(4).disp(8),
        op("movq", &[r(XMM0), masked(3, at(ECX))]).size(8),
        op("cvtsd2si", &[r(EAX), masked(4, at(ECX))]).size(8),
        op("jmpf", &[masked(5, at(EAX))]).size(6),
        op("lds", &[r(EAX), masked(6, at(ECX))]).size(6),
        op("movs", &[seg(SEG_DS, masked(7, at(EDI))), seg(SEG_DS, masked(1, at(ESI)))]).size(1).flags(REP),
        op("incssp", &[r(EAX), masked(1, at(ECX))]).size(4),
        op("wrss", &[masked(2, at(ECX)), r(EAX)]).size(4),
        op("nop", &[seg(SEG_GS, masked(3, near(EAX)))]).size(4),
        op("aam", &[masked(4, at(ECX))]).size(4),
        op("lsl", &[r(EAX), seg(SEG_FS, masked(5, at(ECX)))]).size(2),
    ] {
        rows.record(record);
    }
    rows.section("Masks: in the other arms that show the operand, LEA and LODS among them");
    for record in [
        op("hreset", &[seg(SEG_FS, masked(1, at(ECX)))]),
        op("prefetchnta", &[masked(2, near(ECX))]).disp(4),
        op("sgdt", &[masked(3, at(ECX))]),
        op("lss", &[masked(4, at(EDX)), masked(5, at(ECX))]).size(6),
        op("invlpgb", &[masked(6, at(EAX)), r(EDX), masked(7, at(ECX))]),
        op("scas", &[seg(SEG_ES, masked(1, at(EDI)))]).size(1).flags(REPNZ),
        op("lods", &[r(AL), seg(SEG_FS, masked(2, at(ESI)))]).size(1),
        op("pblendvb", &[masked(3, at(EAX)), seg(SEG_DS, masked(4, at(ECX)))]).size(8),
        op("lea", &[r(EAX), seg(SEG_FS, masked(5, both_near(ECX, EDX, 4)))]).disp(8),
        op("lea", &[masked(1, near(EAX)), masked(6, near(EAX))]).disp(4),
        op("fcom", &[r(ST0), masked(6, at(ECX))]).size(8),
        op("fadd", &[r(ST0), seg(SEG_FS, masked(7, near(ECX)))]).size(8).disp(12),
        op("fadd", &[masked(1, at(EAX)), r(ST0)]),
        op("fld", &[r(ST0), masked(2, near(EBP))]).size(10).disp(-10),
        op("fst", &[masked(3, near(EBP)), r(ST0)]).size(10).disp(-10),
    ] {
        rows.record(record);
    }
}

/// Lines that show no mask, no count and no tail, although the record has them.
pub(super) fn hidden(rows: &mut Rows) {
    rows.section("Extended records whose line shows nothing of it: a branch, NOP of two operands, AAM of 10, names alone");
    let memory = masked(1, at(ECX));
    for record in [
        op("jmp", &[I8, memory]).imm(126).long(2),
        op("jz", &[I32, r(ZMM0), memory]).imm(123).long(5),
        op("xbegin", &[I32, memory]).imm(122).long(6),
        op("nop", &[r(ZMM0), memory]),
        op("aad", &[r(ZMM0), memory]).imm(10),
        op("monitor", &[r(ZMM0), memory]),
        op("mwait", &[r(ZMM0), memory]),
        op("psmash", &[r(ZMM0), memory]),
        op("rdpru", &[r(ZMM0), memory]),
        op("pushf", &[r(ZMM0), memory]),
        op("feni8087_nop", &[r(ZMM0), memory]),
    ] {
        // size 1 would be a count of 64
        rows.record(record.size(1).flags(BROADCAST).end(1, 2));
    }
    rows.section("No count and no tail but in the general path: arms that show the masked operand itself");
    for record in [
        op("hreset", &[memory]),
        op("lsl", &[r(ZMM0), r(EDX), memory]),
        op("lsl", &[r(K0 + 1), r(ZMM0 + 5), memory]),
        op("prefetchw", &[memory]),
        op("lidt", &[memory]),
        op("lss", &[r(ZMM0), memory]).size(4),
        op("invlpgb", &[r(ZMM0), r(ZMM0), memory]),
        op("stos", &[memory]),
        op("lods", &[r(ZMM0), memory]),
        op("blendvps", &[r(ZMM0), memory]),
        op("lea", &[r(ZMM0), memory]),
        op("fcomp", &[r(ZMM0), memory]),
        op("fmul", &[r(ZMM0), memory]),
        op("fmul", &[r(ZMM0), r(K0), memory]),
        op("fild", &[r(ZMM0), memory]),
        op("fild", &[memory, m(ZMM0)]),
        op("fistp", &[memory]),
    ] {
        let size = if record.mem_size == 0 { 1 } else { record.mem_size };
        rows.record(record.size(size).flags(BROADCAST).end(1, 2));
    }
}

/// Banks 8 and 9.
pub(super) fn registers(rows: &mut Rows) {
    rows.section("Register names of banks 8 and 9, by byte");
    let all: Vec<u8> = (ZMM0..K0 + 8).collect();
    for (k, four) in all.chunks(4).enumerate() {
        let slots: Vec<Slot> = four.iter().map(|&byte| if k % 2 == 0 { r(byte) } else { m(byte) }).collect();
        rows.record(op("vaddpd", &slots));
    }
    rows.section("Each vector opcode of the general path: labels and segments, 8 by the registers of banks 5 to 7");
    for name in (158..OPCODES).map(name_of) {
        rows.record(op(name, &[r(XMM0 + 1), seg(SEG_FS, at(ECX))]).size(8).flags(REP));
        rows.record(op(name, &[r(ZMM0), r(K0 + 1), seg(SEG_DS, masked(2, near(ECX)))]).size(8).disp(4).imm(10));
    }
    for record in [
        op("vaddpd", &[]),
        op("vaddpd", &[r(ZMM0), r(ZMM0 + 1), m(ZMM0 + 2)]),
        op("vaddpd", &[I8, I32]).imm(-1),
        op("vaddpd", &[at(EAX), at(ECX)]).size(63),
        op("vaddpd", &[r(ZMM0), at(ECX)]).size(64).flags(XACQUIRE | XRELEASE | LOCK | REP | REPNZ | OPERAND_SIZE),
        op("vcvtps2pd", &[I32]).imm(123).long(5),
        op("vfpclasspd", &[m(K0), r(ZMM0 + 7), U8]).imm(255),
    ] {
        rows.record(record);
    }
}

/// The VPSCATTER arms.
pub(super) fn scatters(rows: &mut Rows) {
    rows.section("VPSCATTER: operand 0 by its own label, with no segment, operand 1 as its mask, operand 2");
    let (k1, zmm) = (r(K0 + 1), r(ZMM0 + 2));
    rows.arm(
        &["vpscatterdd", "vpscatterqd", "vpscatterdq", "vpscatterqq"],
        &[
            op("vpscatterdd", &[both(EAX, ZMM0 + 1, 4), m(K0 + 1), zmm]).size(4),
            op("vpscatterdd", &[seg(SEG_FS, both_near(EAX, YMM0 + 7, 1)), k1, zmm]).size(3).disp(-4).flags(BROADCAST).end(3, 2),
        ],
        &[
            op("vpscatterdd", &[index(XMM0, 1), k1, r(XMM0)]),
            op("vpscatterdd", &[index_near(YMM0 + 1, 8), r(K0), r(YMM0)]).disp(16),
            op("vpscatterdd", &[seg(SEG_DS, both_near(EBX, ZMM0 + 7, 8)), m(K0 + 7), zmm]).disp(0x7FFFFFFF),
        ],
    );
    rows.section("VPSCATTER: each kind of memory, absolutes too, an index of banks 0 and 1 too");
    for slot in [word(), dword(), at(EAX), near(EAX), index(ECX, 2), index_near(CX, 4), both(EAX, ECX, 8), both_near(BX, SI, 1)] {
        rows.record(op("vpscatterdd", &[slot, k1, zmm]).disp(0xABC));
        rows.record(op("vpscatterqq", &[seg(SEG_GS, slot), m(K0), zmm]).disp(-0xABC));
    }
    rows.section("VPSCATTER: each mask, k0 too; any operand 2, its own mask shown and its segment not; a fourth is not shown");
    for k in 0..8 {
        rows.record(op("vpscatterqd", &[both(EAX, XMM0, 4), m(K0 + k), r(ZMM0 + k)]));
    }
    for slot in [r(EAX), U8, word(), seg(SEG_FS, near(ECX)), seg(SEG_ES, masked(3, both_near(ECX, EDX, 2)))] {
        let record = op("vpscatterdq", &[both(EAX, ZMM0, 4), k1, slot, masked(1, at(EAX))]);
        rows.record(record.size(1).imm(10).disp(-1).flags(BROADCAST).end(1, 1));
    }
}

/// `{1toN}`.
pub(super) fn counts(rows: &mut Rows) {
    rows.section("{1toN} by the length bits: 8 with l, else 16 with lp, else 4 for VFPCLASSPS and VCVTNEPS2BF16; 4, 8 and 2 for the others");
    for name in (158..175).map(name_of) {
        for length_bits in 0..4 {
            rows.record(op(name, &[r(ZMM0), at(ECX)]).size(1).flags(BROADCAST).end(length_bits, 0));
        }
    }
    rows.section("{1toN} by widths: of each bank and of each immediate");
    let add = |slots: &[Slot], size| op("vaddpd", slots).size(size).flags(BROADCAST);
    for bank in 0..10 {
        for size in [8, 4, 2, 1] {
            // answer 7 has its own rows
            if !(bank == 8 && size < 4 || bank == 7 && size < 2) {
                rows.record(add(&[r(8 * bank + 1), at(ECX)], size));
            }
        }
    }
    for slot in [I8, I16, I32, U8, U16, U32] {
        rows.record(add(&[slot, at(ECX)], 1).imm(-1));
        rows.record(add(&[slot, at(ECX)], 2).imm(5));
    }
    rows.section("{1toN} by widths: rounded down; 0 after memory; sizes without a label");
    for record in [
        add(&[r(ST0), at(ECX)], 4),
        add(&[r(ST0), at(ECX)], 16),
        add(&[r(ZMM0), at(ECX)], 48),
        add(&[r(ZMM0), at(ECX)], 63),
        add(&[r(YMM0), at(ECX)], 63),
        add(&[r(ZMM0), at(ECX)], 64),
        add(&[r(ZMM0), at(ECX)], 4),
        add(&[at(ECX), at(EDX)], 8),
        add(&[r(XMM0), masked(1, at(ECX)), at(EDX)], 8),
    ] {
        rows.record(record);
    }
    rows.section("{1toN}: after bracket and mask of each memory operand after operand 0, of every kind");
    let kinds = [word(), dword(), at(EBX), near(EBX), index(ESI, 2), index_near(ESI, 2), both(EBX, ESI, 4), both_near(EBX, ESI, 4)];
    for (k, slot) in kinds.into_iter().enumerate() {
        rows.record(add(&[r(ZMM0), slot], 8).disp(4));
        if k > 1 {
            rows.record(add(&[r(ZMM0), seg(SEG_FS, masked(k as u8, slot))], 8).disp(4).end(3, 0));
        }
    }
    for record in [
        add(&[at(EAX)], 1),
        add(&[at(EAX), r(ZMM0)], 1),
        add(&[r(ZMM0), r(XMM0), at(EAX), r(K0)], 1),
        add(&[r(ZMM0), r(XMM0), r(YMM0), dword()], 2),
        add(&[r(XMM0), at(EAX), r(YMM0), near(EAX)], 4),
        add(&[masked(1, at(EAX)), masked(2, at(EAX)), masked(3, at(EAX)), masked(4, at(EAX))], 8),
    ] {
        rows.record(record);
    }
    rows.section("{1toN}: whatever the opcode, in the general path");
    for record in [
        op("mov", &[r(ZMM0), masked(1, at(ECX))]).size(8),
        op("jmp", &[r(ZMM0), masked(1, at(ECX))]).size(4),
        op("lds", &[r(ZMM0), masked(1, at(ECX))]).size(6),
        op("movs", &[at(EDI), seg(SEG_DS, masked(1, at(ESI)))]).size(1),
        op("cvtsd2si", &[r(EAX), masked(1, at(ECX))]).size(8),
        op("pinsrq", &[r(XMM0), masked(1, at(ECX)), U8]).size(8).imm(1),
        op("lsl", &[r(ZMM0), masked(1, at(ECX))]).size(4),
        op("incssp", &[r(EAX), masked(1, at(ECX))]).size(2),
        op("wruss", &[masked(1, at(ECX)), r(EAX), masked(2, at(ECX))]).size(4),
        op("aam", &[r(YMM0), masked(1, at(ECX))]).size(4),
        op("fxsave", &[r(YMM0), masked(1, at(ECX))]).size(48),
    ] {
        rows.record(Record { flags: BROADCAST, ..record });
    }
}

/// Tails.
pub(super) fn tails(rows: &mut Rows) {
    rows.section("Tails: none, `{sae}`, and the four rounding words by the length bits");
    for length_bits in 0..4 {
        for tail in 0..3 {
            rows.record(op("vaddpd", &[r(ZMM0), m(ZMM0 + 1), m(ZMM0 + 2)]).end(length_bits, tail));
        }
    }
    rows.section("Tails: after any general path with an operand, whatever the operands; none without an operand");
    for (name, slots) in [
        ("vaddpd", &[][..]),
        ("vcvtpd2ps", &[]),
        ("vaddpd", &[U8]),
        ("vcvtps2qq", &[at(EAX)]),
        ("vcvtdq2pd", &[r(ZMM0), at(EAX)]),
        ("mov", &[masked(1, at(EAX))]),
        ("jmp", &[U8, masked(1, at(EAX))]),
        ("xbegin", &[I8, masked(1, at(EAX))]),
        ("nop", &[masked(1, at(EAX))]),
        ("aad", &[masked(1, at(EAX))]),
        ("lsl", &[r(ZMM0), masked(1, at(EAX))]),
        ("incssp", &[r(EAX), masked(1, at(EAX))]),
    ] {
        rows.record(op(name, slots).size(8).imm(5).end(0, 1));
        rows.record(op(name, slots).size(8).imm(5).flags(BROADCAST).end(2, 2));
    }
    rows.section("The longest line");
    rows.record(
        op("vcvtneps2bf16", &[seg(SEG_FS, masked(1, both_near(EAX, ECX, 8))); 4])
            .size(16)
            .disp(-0x80000000)
            .flags(BROADCAST | XACQUIRE | XRELEASE | LOCK)
            .end(2, 2),
    );
}
