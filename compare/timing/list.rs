//! A listing program over `direct`: standard input to standard output through 64 KiB each, as the listing
//! programs have it. It is the Rust that the benchmark sets beside them: for listings of version 1 in mode 0, or, built
//! with `--cfg target`, for those of version 2 in mode 2.

#![no_std]

use core::ptr::addr_of_mut;

const SIZE: usize = 1 << 16;
#[cfg(not(target))]
const VERSION_AND_MODE: (u32, u32) = (1, 0);
#[cfg(target)]
const VERSION_AND_MODE: (u32, u32) = (2, 2);

/// A line, its newline, and some to spare.
const LINE: usize = 330;

static mut INPUT: [u8; SIZE] = [0; SIZE];
static mut OUTPUT: [u8; SIZE] = [0; SIZE];

extern "C" {
    fn abort() -> !;
    fn read(file: i32, to: *mut u8, count: usize) -> isize;
    fn write(file: i32, from: *const u8, count: usize) -> isize;
}

#[panic_handler]
fn panic(_: &core::panic::PanicInfo) -> ! {
    // SAFETY: it takes nothing and does not return
    unsafe { abort() }
}

/// The listing is a whole one of that version with no frame over 64 KiB, which is all that is timed.
#[no_mangle]
pub extern "C" fn main() -> i32 {
    // SAFETY: this runs once, and nobody else names the two
    let (input, output) = unsafe { (&mut *addr_of_mut!(INPUT), &mut *addr_of_mut!(OUTPUT)) };
    let (mut held, mut out, mut first) = (0, 0, 1);
    let (version, mode) = VERSION_AND_MODE;
    loop {
        // SAFETY: the place and the count are the slice's
        let got = unsafe { read(0, input[held..].as_mut_ptr(), SIZE - held) };
        if got <= 0 {
            return (got < 0 || held > 0 || !flush(&output[..out])) as i32;
        }
        held += got as usize;
        let mut at = first;
        first = 0;
        while at + 2 <= held {
            let end = at + 2 + u16::from_be_bytes([input[at], input[at + 1]]) as usize;
            if end > held {
                break;
            }
            if out + LINE > SIZE {
                if !flush(&output[..out]) {
                    return 1;
                }
                out = 0;
            }
            let returned = direct::print_record(version, &input[at + 2..end], mode, &mut output[out..]);
            if returned >> 32 != 0 {
                return 1;
            }
            out += returned as usize;
            output[out] = b'\n';
            out += 1;
            at = end;
        }
        input.copy_within(at..held, 0);
        held -= at;
    }
}

fn flush(mut text: &[u8]) -> bool {
    while !text.is_empty() {
        // SAFETY: the place and the count are the slice's
        let done = unsafe { write(1, text.as_ptr(), text.len()) };
        if done <= 0 {
            return false;
        }
        text = &text[done as usize..];
    }
    true
}
