//! The line form: upper-case hexadecimal, two digits a byte, LF after each
//! line. This file knows nothing of frames, nor how long a text may be.

pub const MAX_LINE_BYTES: usize = 255;

/// The bytes of every line, or nothing when the text has not the line form.
pub fn lines(text: &[u8]) -> Option<Vec<Vec<u8>>> {
    // Every line is ended by an LF, so the last piece must end the text;
    // an empty text has no line to end and fails here too.
    let body = text.strip_suffix(b"\n")?;
    body.split(|&byte| byte == b'\n').map(line).collect()
}

fn line(digits: &[u8]) -> Option<Vec<u8>> {
    if digits.is_empty() || digits.len() > 2 * MAX_LINE_BYTES || digits.len() % 2 == 1 {
        return None;
    }
    digits
        .chunks(2)
        .map(|pair| Some(16 * digit(pair[0])? + digit(pair[1])?))
        .collect()
}

fn digit(character: u8) -> Option<u8> {
    match character {
        b'0'..=b'9' => Some(character - b'0'),
        b'A'..=b'F' => Some(character - b'A' + 10),
        _ => None,
    }
}

/// Appends one line, its LF included.
pub fn push_line(text: &mut Vec<u8>, bytes: &[u8]) {
    const DIGITS: &[u8; 16] = b"0123456789ABCDEF";
    for &byte in bytes {
        text.push(DIGITS[usize::from(byte / 16)]);
        text.push(DIGITS[usize::from(byte % 16)]);
    }
    text.push(b'\n');
}
