//! Decimal digits, the lowest first, and the bytes that they are packed in.

/// The two digits of each byte.
pub fn unpacked(bytes: &[u8]) -> Vec<u8> {
    let digits = bytes.iter().flat_map(|byte| [byte & 0x0F, byte >> 4]);
    digits.collect()
}

/// A byte for each two digits, of which there are an even number.
pub fn packed(digits: &[u8]) -> Vec<u8> {
    let bytes = digits.chunks_exact(2).map(|two| two[1] << 4 | two[0]);
    bytes.collect()
}

/// Writes one digit of packed bytes, counted from the lowest, and leaves the others.
pub fn put(bytes: &mut [u8], place: usize, digit: u8) {
    let byte = &mut bytes[place / 2];
    *byte = match place % 2 {
        0 => *byte & 0xF0 | digit,
        _ => *byte & 0x0F | digit << 4,
    };
}
