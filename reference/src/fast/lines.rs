//! The line form, decoded into one run of bytes: refusal 1. Frames are read
//! elsewhere, and so is a second text, which uses the digits only.

use crate::refusals::TEXT_LENGTH;
use crate::text::MAX_LINE_BYTES;

pub struct Lines {
    pub bytes: Vec<u8>,
    /// Where each line ends; the next one starts there.
    pub ends: Vec<usize>,
}

/// The bytes of every line, or nothing when the text earns refusal 1.
pub fn lines(text: &[u8]) -> Option<Lines> {
    if text.len() > TEXT_LENGTH || text.is_empty() {
        return None;
    }
    let mut bytes = vec![0; text.len() / 2 + 1];
    let mut ends = Vec::with_capacity(16);
    let (mut from, mut used) = (0, 0);
    while from < text.len() {
        let length = digits(&text[from..], &mut bytes[used..]);
        from += 2 * length;
        if text.get(from) != Some(&b'\n') || length == 0 || length > MAX_LINE_BYTES {
            return None;
        }
        from += 1;
        used += length;
        ends.push(used);
    }
    Some(Lines { bytes, ends })
}

/// Decodes pairs of digits as far as there are any, eight digits at a time
/// and then one by one, and gives the number of bytes.
fn digits(text: &[u8], bytes: &mut [u8]) -> usize {
    let mut length = 0;
    let eights = text.chunks_exact(8).zip(bytes.chunks_exact_mut(4));
    for (eight, four) in eights {
        let Some(decoded) = decode(eight.try_into().expect("eight")) else {
            break;
        };
        four.copy_from_slice(&decoded);
        length += 4;
    }
    while let Some(&[high, low]) = text.get(2 * length..2 * length + 2)
        && let (Some(high), Some(low)) = (digit(high), digit(low))
    {
        bytes[length] = high << 4 | low;
        length += 1;
    }
    length
}

pub fn digit(character: u8) -> Option<u8> {
    match character {
        b'0'..=b'9' => Some(character - b'0'),
        b'A'..=b'F' => Some(character - b'A' + 10),
        _ => None,
    }
}

/// Four bytes from eight digits at once, or nothing if one is no digit.
pub fn decode(eight: [u8; 8]) -> Option<[u8; 4]> {
    const ONES: u64 = 0x0101_0101_0101_0101;
    let text = u64::from_le_bytes(eight);
    // Letters have bit 6, decimal digits have not.
    let values = (text & (0x0F * ONES)) + 9 * (text >> 6 & ONES);
    let letters = (values + 6 * ONES) >> 4 & ONES;
    let written = values + 0x30 * ONES + 7 * letters;
    if written != text || values & (0xF0 * ONES) != 0 {
        return None;
    }
    // High digits stand in even places, low ones after them.
    let pairs = (values << 4 | values >> 8) & 0x00FF_00FF_00FF_00FF;
    let fours = (pairs | pairs >> 8) & 0x0000_FFFF_0000_FFFF;
    Some(((fours | fours >> 16) as u32).to_le_bytes())
}
