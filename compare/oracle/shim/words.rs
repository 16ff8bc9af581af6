//! Registers, labels and how they are written. 000 leaves the words out; they are document 01's.

use super::arch::display::DisplaySink;
use super::SaeMode;
use crate::opcodes::Opcode;
use core::fmt;

#[derive(Clone, Copy, Debug, PartialEq, Eq)]
pub(crate) enum RegisterBank {
    /// 32 bits
    D,
    /// 16 bits
    W,
    /// 8 bits
    B,
    /// segment registers
    S,
    ST,
    MM,
    /// xmm
    X,
    /// ymm
    Y,
    /// zmm
    Z,
    /// masks
    K,
}

const BANKS: [RegisterBank; 10] = [
    RegisterBank::D,
    RegisterBank::W,
    RegisterBank::B,
    RegisterBank::S,
    RegisterBank::ST,
    RegisterBank::MM,
    RegisterBank::X,
    RegisterBank::Y,
    RegisterBank::Z,
    RegisterBank::K,
];

/// Of one register of each bank, in bytes.
const WIDTHS: [u8; 10] = [4, 2, 1, 2, 10, 8, 16, 32, 64, 8];

/// Document 01's register names, bank by bank; the two empty ones are no registers.
const REGISTERS: [&str; 80] = [
    "eax", "ecx", "edx", "ebx", "esp", "ebp", "esi", "edi", //
    "ax", "cx", "dx", "bx", "sp", "bp", "si", "di", //
    "al", "cl", "dl", "bl", "ah", "ch", "dh", "bh", //
    "es", "cs", "ss", "ds", "fs", "gs", "", "", //
    "st(0)", "st(1)", "st(2)", "st(3)", "st(4)", "st(5)", "st(6)", "st(7)", //
    "mm0", "mm1", "mm2", "mm3", "mm4", "mm5", "mm6", "mm7", //
    "xmm0", "xmm1", "xmm2", "xmm3", "xmm4", "xmm5", "xmm6", "xmm7", //
    "ymm0", "ymm1", "ymm2", "ymm3", "ymm4", "ymm5", "ymm6", "ymm7", //
    "zmm0", "zmm1", "zmm2", "zmm3", "zmm4", "zmm5", "zmm6", "zmm7", //
    "k0", "k1", "k2", "k3", "k4", "k5", "k6", "k7",
];

#[derive(Clone, Copy, Debug, PartialEq, Eq)]
pub(crate) struct RegSpec {
    pub(crate) num: u8,
    pub(crate) bank: RegisterBank,
}

impl RegSpec {
    pub(super) fn of(byte: u8) -> RegSpec {
        RegSpec { num: byte % 8, bank: BANKS[byte as usize / 8] }
    }
    pub(super) fn width(&self) -> u8 {
        WIDTHS[self.bank as usize]
    }
    pub(crate) fn eax() -> RegSpec {
        RegSpec { num: 0, bank: RegisterBank::D }
    }
    pub(crate) fn ecx() -> RegSpec {
        RegSpec { num: 1, bank: RegisterBank::D }
    }
    pub(crate) fn edx() -> RegSpec {
        RegSpec { num: 2, bank: RegisterBank::D }
    }
    pub(crate) fn st0() -> RegSpec {
        RegSpec { num: 0, bank: RegisterBank::ST }
    }
    pub(crate) fn xmm0() -> RegSpec {
        RegSpec { num: 0, bank: RegisterBank::X }
    }
}

/// What 000 can write beyond plain text. The words are document 01's.
pub(crate) trait DisplaySinkExt: DisplaySink {
    fn write_opcode(&mut self, opcode: Opcode) -> fmt::Result {
        self.write_str(opcode.name())
    }
    fn write_reg(&mut self, reg: RegSpec) -> fmt::Result {
        let name = REGISTERS[8 * reg.bank as usize + reg.num as usize];
        assert!(!name.is_empty(), "000 calls for a register that is not there");
        self.write_str(name)
    }
    fn write_scale(&mut self, scale: u8) -> fmt::Result {
        self.write_char((b'0' + scale) as char)
    }
    fn write_mem_size_label(&mut self, size: u8) -> fmt::Result {
        self.write_str(match size {
            1 => "byte",
            2 => "word",
            4 => "dword",
            8 => "qword",
            16 => "xmmword",
            32 => "ymmword",
            64 => "zmmword",
            _ => panic!("000 calls for a label of size {size}, and there is none"),
        })
    }
    /// The Intel manual's words. The published crate writes `{rne-sae}` for the first.
    fn write_sae_mode(&mut self, mode: SaeMode) -> fmt::Result {
        self.write_str(match mode {
            SaeMode::Nearest => "{rn-sae}",
            SaeMode::Down => "{rd-sae}",
            SaeMode::Up => "{ru-sae}",
            SaeMode::Zero => "{rz-sae}",
        })
    }
}

impl<T: DisplaySink> DisplaySinkExt for T {}
