//! Hexadecimal fields, because a line is nothing but such fields.

/// The value of a field of at most eight digits, or nothing if a byte is no
/// digit. Both letter cases are read.
#[inline]
pub fn read(digits: &[u8]) -> Option<u32> {
    let mut value = 0;
    for &byte in digits {
        value = value << 4 | (byte as char).to_digit(16)?;
    }
    Some(value)
}

/// Fills a field with the low digits of a value, in capitals.
#[inline]
pub fn write(value: u32, field: &mut [u8]) {
    let mut rest = value;
    for place in field.iter_mut().rev() {
        *place = b"0123456789ABCDEF"[(rest & 0xF) as usize];
        rest >>= 4;
    }
}
