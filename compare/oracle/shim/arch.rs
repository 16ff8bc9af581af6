//! The stand-in for the crate `yaxpeax_arch`.

/// 000 uses an address only to bring an instruction's length into a number.
pub(crate) trait AddressBase {
    fn wrapping_offset(&self, by: u32) -> Self;
    fn to_linear(&self) -> usize;
}

impl AddressBase for u32 {
    fn wrapping_offset(&self, by: u32) -> u32 {
        self.wrapping_add(by)
    }
    fn to_linear(&self) -> usize {
        *self as usize
    }
}

pub(crate) trait LengthedInstruction {
    fn len(&self) -> u32;
}

pub(crate) mod display {
    use core::fmt;

    /// A sink of text. Spans mark parts for colour and stay without effect.
    pub trait DisplaySink: fmt::Write {
        #[inline(always)]
        fn write_fixed_size(&mut self, text: &str) -> fmt::Result {
            self.write_str(text)
        }
        /// # Safety
        /// None is asked here; the crate asks for fewer than sixteen bytes.
        unsafe fn write_lt_16(&mut self, text: &str) -> fmt::Result {
            self.write_str(text)
        }
        fn span_start_immediate(&mut self) {}
        fn span_end_immediate(&mut self) {}
        fn span_start_address(&mut self) {}
        fn span_end_address(&mut self) {}
    }
}

pub(crate) mod safer_unchecked {
    /// Here the index is checked after all.
    pub(crate) trait GetSaferUnchecked<T> {
        unsafe fn get_kinda_unchecked(&self, index: usize) -> &T;
    }

    impl<T> GetSaferUnchecked<T> for [T] {
        unsafe fn get_kinda_unchecked(&self, index: usize) -> &T {
            &self[index]
        }
    }

    pub(crate) unsafe fn unreachable_kinda_unchecked() -> ! {
        panic!("000 reached what it calls unreachable")
    }
}
