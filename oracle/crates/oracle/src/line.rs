//! From the bytes of a line to its words, as docs/PROGRAMS.md says.

const LONGEST: usize = 16_384;

pub enum Line<'a> {
    PassedOver,
    Unreadable,
    Words(Vec<&'a str>),
}

/// The line of these bytes, which end with LF or with the input.
pub fn read(bytes: &[u8]) -> Line<'_> {
    let line = match bytes.strip_suffix(b"\n") {
        Some(line) => line.strip_suffix(b"\r").unwrap_or(line),
        None => bytes,
    };
    if line.first() == Some(&b'#') || line.iter().all(|&byte| byte == b' ') {
        return Line::PassedOver;
    }
    if line.len() > LONGEST || !line.iter().all(|byte| (32..=126).contains(byte)) {
        return Line::Unreadable;
    }
    match std::str::from_utf8(line) {
        Ok(text) => Line::Words(text.split(' ').filter(|word| !word.is_empty()).collect()),
        Err(_) => Line::Unreadable,
    }
}
