//! A listing program over `direct`: standard input to standard output, frame by frame, and one last line on
//! standard error, as the proved programs have it. The mode is fixed when it is built, by the variable `LIST_MODE`.

use std::io::{BufReader, BufWriter, Read, Write};

/// What came of a listing so far.
#[derive(Default)]
struct Run {
    records: u64,
    refused: u64,
    /// the first byte that is not used yet
    at: u64,
}

fn main() -> std::io::Result<()> {
    let mode = env!("LIST_MODE").parse().expect("LIST_MODE is a number");
    let mut input = BufReader::with_capacity(1 << 15, std::io::stdin().lock());
    let mut output = BufWriter::with_capacity(1 << 15, std::io::stdout().lock());
    let mut run = Run::default();
    let mut version = [0];
    let end = match read_some(&mut input, &mut version)? {
        0 => cut(&run, &mut output)?,
        _ if !matches!(version[0], 1 | 2) => {
            output.write_all(b"; version\n")?;
            "unknown version".to_string()
        }
        _ => frames(version[0] as u32, mode, &mut input, &mut output, &mut run)?,
    };
    output.flush()?;
    eprintln!("list: {} records, {} refused; {end}", run.records, run.refused);
    Ok(())
}

fn cut(run: &Run, output: &mut impl Write) -> std::io::Result<String> {
    output.write_all(b"; cut\n")?;
    Ok(format!("cut at byte {}", run.at))
}

fn frames(
    version: u32, mode: u32, input: &mut impl Read, output: &mut impl Write, run: &mut Run,
) -> std::io::Result<String> {
    let mut body = Vec::new();
    let mut text = [0; 320];
    run.at = 1;
    loop {
        let mut length = [0; 2];
        match read_some(input, &mut length)? {
            0 => return Ok("whole".to_string()),
            1 => return cut(run, output),
            _ => {}
        }
        body.resize(u16::from_be_bytes(length) as usize, 0);
        if read_some(input, &mut body)? < body.len() {
            return cut(run, output);
        }
        run.records += 1;
        run.at += 2 + body.len() as u64;
        let returned = direct::print_record(version, &body, mode, &mut text);
        match returned >> 32 {
            0 => output.write_all(&text[..returned as u32 as usize])?,
            answer => {
                run.refused += 1;
                write!(output, "; refused {answer}")?
            }
        }
        output.write_all(b"\n")?;
    }
}

/// As many bytes as there are, up to the buffer's end.
fn read_some(input: &mut impl Read, buffer: &mut [u8]) -> std::io::Result<usize> {
    let mut at = 0;
    while at < buffer.len() {
        match input.read(&mut buffer[at..])? {
            0 => break,
            count => at += count,
        }
    }
    Ok(at)
}
