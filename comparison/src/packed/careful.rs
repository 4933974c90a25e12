//! What a careful engineer writes in plain Rust for the promise of the two functions: the same refusals
//! in the same order, then one pass over the bytes, with the two digits of each and the carry. Benchmarks
//! time the port beside it.
//!
//! All digits are looked at without a way out, which is quicker than to stop at the first that is over 9.

use super::reference::LONGEST;

/// Adds as the port's function does. It is never inlined, because the port's is a call too.
#[inline(never)]
pub fn add(x: &[u8], y: &[u8], carry: bool, out: &mut [u8], carry_out: &mut u8) -> u8 {
    let status = judge(x, y, out.len());
    if status != 0 {
        return status;
    }
    let mut carry = u8::from(carry);
    for ((to, &x), &y) in out.iter_mut().zip(x).zip(y) {
        let (low, over) = summed((x & 0x0F) + (y & 0x0F) + carry);
        let (high, over) = summed((x >> 4) + (y >> 4) + over);
        *to = high << 4 | low;
        carry = over;
    }
    *carry_out = carry;
    0
}

/// Subtracts as the port's function does.
#[inline(never)]
pub fn subtract(x: &[u8], y: &[u8], borrow: bool, out: &mut [u8], borrow_out: &mut u8) -> u8 {
    let status = judge(x, y, out.len());
    if status != 0 {
        return status;
    }
    let mut borrow = u8::from(borrow);
    for ((to, &x), &y) in out.iter_mut().zip(x).zip(y) {
        let (low, under) = taken(10 + (x & 0x0F) - (y & 0x0F) - borrow);
        let (high, under) = taken(10 + (x >> 4) - (y >> 4) - under);
        *to = high << 4 | low;
        borrow = under;
    }
    *borrow_out = borrow;
    0
}

fn judge(x: &[u8], y: &[u8], room: usize) -> u8 {
    if x.len() != y.len() {
        return 20;
    }
    if x.is_empty() || x.len() > LONGEST {
        return 21;
    }
    if !(are_packed(x) & are_packed(y)) {
        return 22;
    }
    if room < x.len() {
        return 23;
    }
    0
}

fn are_packed(bytes: &[u8]) -> bool {
    let packed = |byte: u8| (byte >> 4 <= 9) & (byte & 0x0F <= 9);
    bytes.iter().fold(true, |all, &byte| all & packed(byte))
}

/// The digit of a sum of two digits and a carry, and the carry out.
fn summed(sum: u8) -> (u8, u8) {
    if sum > 9 {
        (sum - 10, 1)
    } else {
        (sum, 0)
    }
}

/// The digit of a difference of two digits and a borrow, handed over with 10 more, and the borrow out.
fn taken(difference: u8) -> (u8, u8) {
    if difference > 9 {
        (difference - 10, 0)
    } else {
        (difference, 1)
    }
}
