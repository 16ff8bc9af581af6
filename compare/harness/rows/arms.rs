//! The arms of the match on the opcode.

use super::*;

/// The arms of the match on the opcode, but for the floating ones.
pub(super) fn arms(rows: &mut Rows) {
    rows.section("FENI8087_NOP, FDISI8087_NOP, FSETPM287_NOP: a name alone");
    for name in ["feni8087_nop", "fdisi8087_nop", "fsetpm287_nop"] {
        rows.record(op(name, &[]));
        rows.record(op(name, &[at(EAX), r(ECX)]).size(3).flags(LOCK | REP));
    }
    rows.section("HRESET: operand 0, without label and segment, and eax");
    for record in [
        op("hreset", &[U8]).imm(5).flags(REP),
        op("hreset", &[seg(SEG_FS, at(ECX)), r(EDX)]).size(3),
        op("hreset", &[r(EBX)]),
    ] {
        rows.record(record);
    }
    rows.section("LSL: a source that is a register takes the bank of operand 0; any other is the general path's");
    for record in [
        op("lsl", &[r(EAX), m(DX)]).flags(REP),
        op("lsl", &[r(AX), m(EDX)]),
        op("lsl", &[r(ES), m(ECX), r(ECX)]),
        op("lsl", &[r(GS), m(EBP)]),
        op("lsl", &[r(ES), m(AX)]),
        op("lsl", &[m(MM0), r(BH)]),
        op("lsl", &[r(EAX), seg(SEG_FS, at(ECX))]).size(2),
        op("lsl", &[r(XMM0), at(ECX)]).size(8),
        op("lsl", &[r(EAX), U8, r(DX)]).imm(5),
        op("lsl", &[r(EAX)]),
    ] {
        rows.record(record);
    }
    rows.section("PREFETCHNTA and its like: operand 0, without label and segment");
    rows.arm(
        &["prefetchnta", "prefetch0", "prefetch1", "prefetch2", "prefetchw", "invlpg", "clflush", "clflushopt", "clwb"],
        &[op("prefetchnta", &[seg(SEG_FS, near(ECX)), r(EAX)]).size(3).disp(4)],
        &[
            op("prefetchnta", &[word(), r(EAX)]).disp(-1),
            op("prefetchnta", &[index(ECX, 2)]).size(3),
            op("prefetchnta", &[m(EAX)]),
            op("prefetchnta", &[U8]).imm(15),
        ],
    );
    rows.section("SGDT, SIDT, LGDT, LIDT: `fword` whatever the size, and no segment");
    rows.arm(
        &["sgdt", "sidt", "lgdt", "lidt"],
        &[op("sgdt", &[seg(SEG_FS, at(ECX)), r(EAX)]).size(3)],
        &[
            op("sgdt", &[near(ECX)]).size(6).disp(-16),
            op("sgdt", &[seg(SEG_CS, word()), r(EAX)]).size(63).disp(0x1234),
            op("sgdt", &[both(EAX, ECX, 1)]),
        ],
    );
    rows.section("LSS: 4 `dword`, 6 `fword`, and no segment");
    for record in [
        op("lss", &[r(AX), seg(SEG_FS, at(ECX))]).size(4).flags(REP),
        op("lss", &[r(EAX), near(ECX)]).size(6),
        op("lss", &[seg(SEG_ES, at(EDX)), at(ECX), r(EAX)]).size(6),
    ] {
        rows.record(record);
    }
    rows.section("NOP: nothing where there are two operands or more");
    for record in [
        op("nop", &[]),
        op("nop", &[seg(SEG_GS, near(EAX))]).size(4).flags(REP),
        op("nop", &[m(ECX)]),
        op("nop", &[at(EAX), r(ECX)]).size(3),
        op("nop", &[r(EAX), r(ECX), r(EDX)]),
    ] {
        rows.record(record);
    }
    rows.section("Registers that stand in no operand");
    for name in ["monitor", "monitorx", "mwaitx", "mwait", "psmash", "pvalidate", "rmpadjust", "rmpupdate"] {
        rows.record(op(name, &[]));
        rows.record(op(name, &[r(EBX), seg(SEG_FS, at(EDI))]).size(3).flags(LOCK | REP));
    }
    rows.section("RDPRU: nothing");
    for record in [op("rdpru", &[]), op("rdpru", &[r(ECX), at(EAX)]).size(3).flags(REP)] {
        rows.record(record);
    }
    rows.section("INVLPGB: operands 0 and 2");
    for record in [
        op("invlpgb", &[r(EAX), r(EDX), r(ECX)]).flags(REP),
        op("invlpgb", &[seg(SEG_FS, at(EAX)), at(EDX), seg(SEG_ES, at(ECX)), r(EDI)]).size(3),
    ] {
        rows.record(record);
    }
    rows.section("INCSSP, WRSS, WRUSS: a d after the name");
    for record in [
        op("incssp", &[m(EDI)]).flags(REP),
        op("incssp", &[r(EAX), seg(SEG_FS, at(ECX))]).size(4),
        op("wrss", &[seg(SEG_FS, at(ECX)), r(EAX)]).size(4),
        op("wrss", &[at(ECX), m(EDI), r(MM0)]).size(8).flags(REP),
        op("wruss", &[r(ECX), m(EDX)]).flags(REP),
        op("wruss", &[seg(SEG_GS, near(ECX)), r(ESI)]).size(4).disp(-1),
    ] {
        rows.record(record);
    }
    rows.section("PBLENDVB and its like: operands 0 and 1, memory of operand 1 with label and segment, never `mmword`, and xmm0");
    rows.arm(
        &["pblendvb", "blendvps", "blendvpd", "sha256rnds2"],
        &[op("pblendvb", &[r(XMM0 + 1), seg(SEG_DS, at(EAX))]).size(8)],
        &[
            op("pblendvb", &[r(XMM0 + 1), m(XMM0 + 2)]),
            op("pblendvb", &[r(XMM0 + 1), seg(SEG_FS, near(EAX))]).size(16).disp(16),
            op("pblendvb", &[seg(SEG_ES, at(EAX)), m(XMM0 + 7), r(XMM0 + 3)]).size(3),
            op("pblendvb", &[r(XMM0 + 1), U8]).imm(10),
        ],
    );
    rows.section("LEA: operands 0 and 1, without label and segment");
    for record in [
        op("lea", &[r(EAX), seg(SEG_FS, both_near(ECX, EDX, 4))]).size(3).disp(8),
        op("lea", &[r(AX), seg(SEG_GS, word()), r(ECX)]).disp(0xBEEF),
        op("lea", &[r(EAX), m(ECX)]).flags(REP),
    ] {
        rows.record(record);
    }
    rows.section("PUSHF: a d unless the operand size flag is set");
    for flags in [0, XACQUIRE, XRELEASE, LOCK, REP, REPNZ, OPERAND_SIZE, 63] {
        rows.record(op("pushf", &[]).flags(flags));
    }
    rows.record(op("pushf", &[at(EAX), r(EAX)]).size(3));
    rows.section("AAM, AAD: nothing where the whole imm is 10");
    for name in ["aam", "aad"] {
        for imm in [10, 266, 9, -246] {
            rows.record(op(name, &[U8]).imm(imm));
        }
        rows.record(op(name, &[at(ECX), r(EAX)]).size(3).imm(10).flags(REP));
    }
    rows.record(op("aam", &[seg(SEG_FS, at(ECX))]).size(4));
    rows.record(op("aad", &[]));
}

/// The floating arms.
pub(super) fn floating(rows: &mut Rows) {
    let (st, st1) = (ST0, ST0 + 1);
    rows.section("FCOM and its like: operand 1");
    rows.arm(
        &["fcom", "fcomp", "ficom", "ficomp"],
        &[op("fcom", &[r(st1), m(st)]), op("fcom", &[m(st), seg(SEG_DS, at(ECX)), r(MM0)]).size(8)],
        &[
            op("fcom", &[r(st), r(st1)]),
            op("fcom", &[r(st), U8]).imm(10),
            op("fcom", &[r(st), seg(SEG_SS, at(EBP))]).size(4),
            op("fcom", &[seg(SEG_FS, at(EAX)), near(EBP), r(MM0)]).size(8).disp(-10),
        ],
    );
    rows.section("FADD and its like: memory as operand 1 alone; else `st` for st(0), in operand 0 where it is of kind 1, else in operand 1");
    let all: Vec<&str> = (112..142).map(name_of).collect();
    rows.arm(
        &all,
        &[op("fadd", &[r(st), m(st1)]), op("fadd", &[r(st), seg(SEG_FS, near(ECX)), r(MM0)]).size(8).disp(12)],
        &[
            op("fadd", &[m(st1), r(st)]),
            op("fadd", &[r(st), r(st)]),
            op("fadd", &[m(st), r(st)]),
            op("fadd", &[r(st1), m(st)]),
            op("fadd", &[r(st1), r(st)]),
            op("fadd", &[m(st), r(st1)]),
            op("fadd", &[m(st1), at(EAX), r(MM0)]).size(4),
            op("fadd", &[r(st), U8]).imm(10),
            op("fadd", &[seg(SEG_GS, at(EAX)), r(st)]).size(3),
            op("fadd", &[r(EAX), r(st), r(st)]),
        ],
    );
    rows.section("FBLD and its like: operand 1, 10 is `tbyte`, `st` for st(0)");
    rows.arm(
        &["fld", "fbld", "fild", "fxch", "fucom", "fucomp"],
        &[op("fld", &[r(st), m(st)]), op("fld", &[r(st), seg(SEG_GS, near(EBP))]).size(10).disp(-10)],
        &[
            op("fld", &[r(st), m(st1)]),
            op("fld", &[r(st), at(EAX)]).size(8),
            op("fld", &[at(ECX), m(EAX), r(st)]).size(3),
        ],
    );
    rows.section("FBSTP and its like: operand 0, 10 is `tbyte`, st(0) as it is");
    rows.arm(
        &["fst", "fbstp", "fstp", "fist", "fistp", "fisttp"],
        &[op("fst", &[m(st), r(st)]), op("fst", &[seg(SEG_ES, near(EBP)), r(st)]).size(10).disp(-10)],
        &[
            op("fst", &[m(st1), r(st)]),
            op("fst", &[at(EAX)]).size(8),
            op("fst", &[r(st)]),
        ],
    );
}
