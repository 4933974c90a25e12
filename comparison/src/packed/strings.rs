//! Strings of packed digits, drawn.

use super::call::Operation;
use super::digits::put;
use oracle::draw::Draw;

/// Any digits, each as likely as another.
pub fn any(draw: &mut Draw, length: usize) -> Vec<u8> {
    (0..length).map(|_| byte(draw)).collect()
}

fn byte(draw: &mut Draw) -> u8 {
    let number = draw.below(100) as u8;
    number / 10 * 16 + number % 10
}

/// Two of one length. In half of them most bytes hand a carry or a borrow on, which goes through few
/// bytes of any digits.
pub fn operands(draw: &mut Draw, operation: Operation, length: usize) -> [Vec<u8>; 2] {
    let x = any(draw, length);
    let y = match draw.below(2) {
        0 => any(draw, length),
        _ => x
            .iter()
            .map(|&x| mostly_passing(draw, operation, x))
            .collect(),
    };
    [x, y]
}

/// The byte beside X that makes 99 of it, or takes all of it. One of eight is any other.
fn mostly_passing(draw: &mut Draw, operation: Operation, x: u8) -> u8 {
    match (draw.below(8), operation) {
        (0, _) => byte(draw),
        (_, Operation::Add) => 0x99 - x,
        (_, Operation::Subtract) => x,
    }
}

/// Puts a digit over 9 somewhere, if there is a byte to hold it.
pub fn spoil(draw: &mut Draw, bytes: &mut [u8]) {
    if !bytes.is_empty() {
        let place = draw.below(2 * bytes.len() as u32) as usize;
        put(bytes, place, 10 + draw.below(6) as u8);
    }
}
