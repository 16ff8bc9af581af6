//! The Rust printers under the archive's two names, so that one C host times all of them alike: the
//! one made from 000 (`--cfg from_000`), or the direct one. Only `core` is used, so that nothing but the
//! printer is linked.

#![no_std]

use core::slice::{from_raw_parts, from_raw_parts_mut};
#[cfg(not(from_000))]
use direct::{print_listing, print_record};
#[cfg(from_000)]
use oracle::{print_listing, print_record};

#[panic_handler]
fn panic(_: &core::panic::PanicInfo) -> ! {
    extern "C" {
        fn abort() -> !;
    }
    // SAFETY: it takes nothing and does not return
    unsafe { abort() }
}

/// # Safety
/// As for the archive: both pointers hold for their lengths, and the two do not overlap.
#[no_mangle]
pub unsafe extern "C" fn masm_print_record(
    body: *const u8, body_len: usize, version: u32, mode: u32, text: *mut u8, text_len: usize,
) -> u64 {
    print_record(version, from_raw_parts(body, body_len), mode, from_raw_parts_mut(text, text_len))
}

/// # Safety
/// As for the archive: both pointers hold for their lengths, and the two do not overlap.
#[no_mangle]
pub unsafe extern "C" fn masm_print_listing(
    listing: *const u8, listing_len: usize, mode: u32, text: *mut u8, text_len: usize,
) -> u64 {
    print_listing(from_raw_parts(listing, listing_len), mode, from_raw_parts_mut(text, text_len))
}
