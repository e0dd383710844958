//! Bytes as lower-case hexadecimal digits, `-` for none.

const DIGITS: &[u8; 16] = b"0123456789abcdef";

pub fn write_hex(bytes: &[u8], out: &mut Vec<u8>) {
    if bytes.is_empty() {
        out.push(b'-');
    }
    out.reserve(2 * bytes.len());
    for &byte in bytes {
        out.push(DIGITS[usize::from(byte >> 4)]);
        out.push(DIGITS[usize::from(byte & 15)]);
    }
}

pub fn read_hex(text: &[u8]) -> Result<Vec<u8>, &'static str> {
    if text == b"-" {
        return Ok(Vec::new());
    }
    if text.is_empty() {
        return Err("no bytes are written as -");
    }
    let (pairs, rest) = text.as_chunks::<2>();
    if !rest.is_empty() {
        return Err("an odd number of hexadecimal digits");
    }
    pairs
        .iter()
        .map(|&[high, low]| Ok(digit(high)? << 4 | digit(low)?))
        .collect()
}

fn digit(byte: u8) -> Result<u8, &'static str> {
    match byte {
        b'0'..=b'9' => Ok(byte - b'0'),
        b'a'..=b'f' => Ok(byte - b'a' + 10),
        _ => Err("bytes are written in lower-case hexadecimal digits"),
    }
}
