//! The code of an object file.

/// The bytes of `.text` in a little-endian 32-bit ELF file.
pub fn text_section(file: &[u8]) -> Option<&[u8]> {
    let half = |at: usize| Some(u16::from_le_bytes(file.get(at..at + 2)?.try_into().ok()?) as usize);
    let word = |at: usize| Some(u32::from_le_bytes(file.get(at..at + 4)?.try_into().ok()?) as usize);
    if file.get(..5)? != b"\x7fELF\x01" {
        return None;
    }
    let (headers, size, count, names) = (word(32)?, half(46)?, half(48)?, half(50)?);
    let name_table = word(headers + size * names + 16)?;
    (0..count).find_map(|number| {
        let header = headers + size * number;
        let name = name_table + word(header)?;
        let (start, length) = (word(header + 16)?, word(header + 20)?);
        (file.get(name..name + 6)? == b".text\0").then(|| file.get(start..start + length))?
    })
}
