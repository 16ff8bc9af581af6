//! Words.

pub(crate) const NAMES: [&str; 176] = [
    "jmp", "call", "jecxz", "loop", "loopz", "loopnz", "jo", "jno", "jb", "jnb", "jz", "jnz", "jna",
    "ja", "js", "jns", "jp", "jnp", "jl", "jge", "jle", "jg", "xbegin", "mov", "add", "or", "adc",
    "sbb", "and", "sub", "xor", "cmp", "test", "push", "pop", "inc", "dec", "neg", "not", "fxsave",
    "fxrstor", "movaps", "movq", "movlps", "movhps", "movlpd", "movhpd", "movntsd", "cvtsi2ss",
    "cvtsi2sd", "cvtsd2si", "cvttsd2si", "pextrq", "pinsrq", "lds", "les", "lfs", "lgs", "jmp",
    "call", "movs", "cmps", "ins", "outs", "hreset", "lsl", "prefetchnta", "prefetch0", "prefetch1",
    "prefetch2", "prefetchw", "invlpg", "clflush", "clflushopt", "clwb", "sgdt", "sidt", "lgdt",
    "lidt", "lss", "nop", "monitor", "monitorx", "mwaitx", "mwait", "invlpgb", "rdpru", "scas",
    "stos", "lods", "psmash", "pvalidate", "rmpadjust", "rmpupdate", "incsspd", "wrssd", "wrussd",
    "pblendvb", "blendvps", "blendvpd", "sha256rnds2", "lea", "pushf", "aam", "aad", "feni", "fdisi",
    "fsetpm", "fcom", "fcomp", "ficom", "ficomp", "fadd", "fmul", "fsub", "fsubr", "fdiv", "fdivr",
    "faddp", "fmulp", "fsubrp", "fsubp", "fdivp", "fdivrp", "fiadd", "fimul", "fisub", "fisubr",
    "fidiv", "fidivr", "fcmovb", "fcmove", "fcmovbe", "fcmovu", "fcmovnb", "fcmovne", "fcmovnbe",
    "fcmovnu", "fucomi", "fcomi", "fucomip", "fcomip", "fbld", "fld", "fild", "fxch", "fucom",
    "fucomp", "fbstp", "fst", "fstp", "fist", "fistp", "fisttp", "vpscatterdd", "vpscatterqd",
    "vpscatterdq", "vpscatterqq", "vcvtpd2ps", "vcvttpd2udq", "vcvtpd2udq", "vcvtudq2pd", "vcvtps2pd",
    "vcvtqq2ps", "vcvtdq2pd", "vcvttpd2dq", "vfpclassps", "vfpclasspd", "vcvtneps2bf16", "vcvtuqq2ps",
    "vcvtpd2dq", "vcvttps2uqq", "vcvtps2uqq", "vcvttps2qq", "vcvtps2qq", "vaddpd",
];

/// 30, 31 and those from 80 on are places that no register byte reaches: so a byte's low seven bits are a place.
pub(crate) const REGISTERS: [&str; 128] = {
    let mut all = [""; 128];
    let mut at = 0;
    while at < NAMED.len() {
        all[at] = NAMED[at];
        at += 1;
    }
    all
};

const NAMED: [&str; 80] = [
    "eax", "ecx", "edx", "ebx", "esp", "ebp", "esi", "edi", "ax", "cx", "dx", "bx", "sp", "bp", "si",
    "di", "al", "cl", "dl", "bl", "ah", "ch", "dh", "bh", "es", "cs", "ss", "ds", "fs", "gs", "", "",
    "st(0)", "st(1)", "st(2)", "st(3)", "st(4)", "st(5)", "st(6)", "st(7)", "mm0", "mm1", "mm2",
    "mm3", "mm4", "mm5", "mm6", "mm7", "xmm0", "xmm1", "xmm2", "xmm3", "xmm4", "xmm5", "xmm6",
    "xmm7", "ymm0", "ymm1", "ymm2", "ymm3", "ymm4", "ymm5", "ymm6", "ymm7", "zmm0", "zmm1", "zmm2",
    "zmm3", "zmm4", "zmm5", "zmm6", "zmm7", "k0", "k1", "k2", "k3", "k4", "k5", "k6", "k7",
];

/// A tail of 2, by the length bits.
pub(crate) const ROUNDINGS: [&str; 4] = [" {rn-sae}", " {rd-sae}", " {ru-sae}", " {rz-sae}"];

pub(crate) const SEGMENTS: [&str; 7] = ["", "es:", "cs:", "ss:", "ds:", "fs:", "gs:"];

/// The labels of sizes that have one everywhere, and none (the empty text) of others.
#[inline]
pub(crate) fn label(size: u8) -> &'static str {
    match size {
        1 => "byte ptr ",
        2 => "word ptr ",
        4 => "dword ptr ",
        8 => "qword ptr ",
        16 => "xmmword ptr ",
        32 => "ymmword ptr ",
        64 => "zmmword ptr ",
        _ => "",
    }
}
