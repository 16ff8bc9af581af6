//! `direct` under the archive's two names, to try the comparison where there is no archive.

/// A slice from C: a length of 0 may come with any pointer.
///
/// # Safety
/// `at` points to `length` bytes that stay as they are for the call.
unsafe fn lent<'a>(at: *const u8, length: usize) -> &'a [u8] {
    if length == 0 {
        &[]
    } else {
        std::slice::from_raw_parts(at, length)
    }
}

/// # Safety
/// As for the archive: both pointers hold for their lengths, and the two do not overlap.
#[no_mangle]
pub unsafe extern "C" fn masm_print_record(
    body: *const u8, body_len: usize, version: u32, mode: u32, text: *mut u8, text_len: usize,
) -> u64 {
    direct::print_record(version, lent(body, body_len), mode, std::slice::from_raw_parts_mut(text, text_len))
}

/// # Safety
/// As for the archive: both pointers hold for their lengths, and the two do not overlap.
#[no_mangle]
pub unsafe extern "C" fn masm_print_listing(
    listing: *const u8, listing_len: usize, mode: u32, text: *mut u8, text_len: usize,
) -> u64 {
    direct::print_listing(lent(listing, listing_len), mode, std::slice::from_raw_parts_mut(text, text_len))
}
