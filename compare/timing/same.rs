//! Whether two files have the same bytes, each read through 128 KiB: the least that a comparison of two listings takes.
//! It knows no records, and is the Rust that the benchmark sets beside `compare_listings`. Its words are that
//! program's: a mode, which it does not look at, and two files.

use std::fs::File;
use std::io::{BufRead, BufReader, Result};

fn main() -> Result<()> {
    let mut files = Vec::new();
    for name in std::env::args_os().skip(2) {
        files.push(BufReader::with_capacity(1 << 17, File::open(name)?));
    }
    let [first, second] = &mut files[..] else {
        panic!("use: same MODE FIRST SECOND")
    };
    loop {
        let (a, b) = (first.fill_buf()?, second.fill_buf()?);
        let both = a.len().min(b.len());
        if a[..both] != b[..both] || both == 0 && a.len() != b.len() {
            println!("different");
            return Ok(());
        }
        if both == 0 {
            println!("differing records: 0");
            return Ok(());
        }
        first.consume(both);
        second.consume(both);
    }
}
