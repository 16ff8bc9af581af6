//! Opcode numbers, in document 01's order, and printed names.

/// How many opcodes have a number: 0 up to this one, which is none.
pub const OPCODES: u16 = 176;

const NUMBERED: usize = OPCODES as usize;

/// A name of the table in lower case. Every name has at most sixteen letters.
type Name = ([u8; 16], usize);

const fn lower(name: &str) -> Name {
    let from = name.as_bytes();
    let mut to = [0; 16];
    let mut at = 0;
    while at < from.len() {
        to[at] = from[at].to_ascii_lowercase();
        at += 1;
    }
    (to, at)
}

macro_rules! opcodes {
    ($($numbered:ident)* ; $($named:ident)*) => {
        /// The numbered opcodes, then those that 000 mentions and no record can hold.
        #[allow(non_camel_case_types, dead_code)]
        #[derive(Clone, Copy, Debug, PartialEq, Eq)]
        #[repr(u16)]
        pub(crate) enum Opcode { $($numbered,)* $($named,)* }

        const BY_NUMBER: [Opcode; NUMBERED] = [$(Opcode::$numbered,)*];
        static NAMES: [&str; NUMBERED] = [$({
            const NAME: Name = lower(stringify!($numbered));
            match core::str::from_utf8(NAME.0.split_at(NAME.1).0) {
                Ok(name) => name,
                Err(_) => unreachable!(),
            }
        },)*];
    };
}

opcodes! {
    // the 22 relative branches, then XBEGIN
    JMP CALL JECXZ LOOP LOOPZ LOOPNZ JO JNO JB JNB JZ JNZ JNA JA JS JNS JP JNP JL JGE JLE JG
    XBEGIN
    // 23
    MOV ADD OR ADC SBB AND SUB XOR CMP TEST PUSH POP INC DEC NEG NOT FXSAVE FXRSTOR MOVAPS MOVQ
    MOVLPS MOVHPS MOVLPD MOVHPD MOVNTSD CVTSI2SS CVTSI2SD CVTSD2SI CVTTSD2SI PEXTRQ PINSRQ LDS LES
    LFS LGS JMPF CALLF MOVS CMPS INS OUTS
    // 64
    HRESET LSL PREFETCHNTA PREFETCH0 PREFETCH1 PREFETCH2 PREFETCHW INVLPG CLFLUSH CLFLUSHOPT CLWB
    SGDT SIDT LGDT LIDT LSS NOP MONITOR MONITORX MWAITX MWAIT INVLPGB RDPRU SCAS STOS LODS PSMASH
    PVALIDATE RMPADJUST RMPUPDATE INCSSP WRSS WRUSS PBLENDVB BLENDVPS BLENDVPD SHA256RNDS2 LEA PUSHF
    AAM AAD FENI8087_NOP FDISI8087_NOP FSETPM287_NOP
    // 108: 000's FCOM and FADD arms
    FCOM FCOMP FICOM FICOMP
    FADD FMUL FSUB FSUBR FDIV FDIVR FADDP FMULP FSUBRP FSUBP FDIVP FDIVRP
    FIADD FIMUL FISUB FISUBR FIDIV FIDIVR
    FCMOVB FCMOVE FCMOVBE FCMOVU FCMOVNB FCMOVNE FCMOVNBE FCMOVNU
    FUCOMI FCOMI FUCOMIP FCOMIP
    // 142: its FBLD and FBSTP arms
    FBLD FLD FILD FXCH FUCOM FUCOMP
    FBSTP FST FSTP FIST FISTP FISTTP
    // 154: its VPSCATTER arms
    VPSCATTERDD VPSCATTERQD VPSCATTERDQ VPSCATTERQQ
    // 158: the opcodes of its broadcast rule, then one that has the rule for all others
    VCVTPD2PS VCVTTPD2UDQ VCVTPD2UDQ VCVTUDQ2PD VCVTPS2PD VCVTQQ2PS VCVTDQ2PD VCVTTPD2DQ VFPCLASSPS
    VFPCLASSPD VCVTNEPS2BF16 VCVTUQQ2PS VCVTPD2DQ VCVTTPS2UQQ VCVTPS2UQQ VCVTTPS2QQ VCVTPS2QQ
    VADDPD
    ;
    JCXZ VPEXTRQ VPINSRQ
}

impl Opcode {
    pub(crate) fn numbered(number: u16) -> Opcode {
        BY_NUMBER[number as usize]
    }

    /// Left out of 000; document 01 gives the list.
    pub(crate) fn can_rep(&self) -> bool {
        use Opcode::*;
        matches!(self, MOVS | CMPS | SCAS | LODS | STOS | INS | OUTS)
    }

    pub(crate) fn name(&self) -> &'static str {
        NAMES[*self as usize]
    }
}

/// The name that the table holds for an opcode that has a number.
pub fn name_of(number: u16) -> &'static str {
    Opcode::numbered(number).name()
}
