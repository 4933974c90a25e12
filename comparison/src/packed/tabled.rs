//! The same promise in plain Rust once more, written for speed: a first pass without carries, of which the
//! compiler takes many bytes at once, and a table of sums for the second. It is the quickest of the forms
//! that were tried, and quicker than the port. Benchmarks time the port beside it too.

use super::reference::LONGEST;

/// The lower two digits of a sum, packed. No sum is over 199, but an index that is a byte needs no check.
static PACKED: [u8; 256] = packed();

const fn packed() -> [u8; 256] {
    let mut table = [0; 256];
    let mut sum = 0;
    while sum < 256 {
        table[sum] = (sum / 10 % 10 * 16 + sum % 10) as u8;
        sum += 1;
    }
    table
}

/// Adds as the port's function does. It is never inlined, because the port's is a call too.
#[inline(never)]
pub fn add(x: &[u8], y: &[u8], carry: bool, out: &mut [u8], carry_out: &mut u8) -> u8 {
    let mut sums = [0; LONGEST];
    let status = judge(x, y, out.len(), &mut sums, u8::wrapping_add);
    if status == 0 {
        *carry_out = hand_on(&sums[..x.len()], carry.into(), out);
    }
    status
}

/// Subtracts as the port's function does: adds what Y lacks of 99 in each byte, with a carry where there
/// is no borrow.
#[inline(never)]
pub fn subtract(x: &[u8], y: &[u8], borrow: bool, out: &mut [u8], borrow_out: &mut u8) -> u8 {
    let mut sums = [0; LONGEST];
    let lacking = |x: u8, y: u8| x.wrapping_add(99).wrapping_sub(y);
    let status = judge(x, y, out.len(), &mut sums, lacking);
    if status == 0 {
        *borrow_out = 1 - hand_on(&sums[..x.len()], (!borrow).into(), out);
    }
    status
}

/// The status, and the sum of each two bytes without any carry. Digits are looked at while their bytes
/// are summed, without a branch, so that the compiler takes many bytes at once. A sum wraps only if it is
/// none of digits, and is then not used.
#[inline(always)]
fn judge(
    x: &[u8],
    y: &[u8],
    room: usize,
    sums: &mut [u8; LONGEST],
    sum: impl Fn(u8, u8) -> u8,
) -> u8 {
    if x.len() != y.len() {
        return 20;
    }
    if x.is_empty() || x.len() > LONGEST {
        return 21;
    }
    let mut seen = 0;
    for ((to, &x), &y) in sums.iter_mut().zip(x).zip(y) {
        seen |= sixes(x) | sixes(y);
        *to = sum(value(x), value(y));
    }
    if seen & 0x10 != 0 {
        return 22;
    }
    if room < x.len() {
        return 23;
    }
    0
}

/// Has bit 4 set if a digit is over 9.
#[inline(always)]
fn sixes(byte: u8) -> u8 {
    ((byte & 0x0F) + 6) | ((byte >> 4) + 6)
}

/// The number from 0 to 99 that two digits are.
#[inline(always)]
fn value(byte: u8) -> u8 {
    byte - 6 * (byte >> 4)
}

/// Writes the digits of the sums, each with the carry of the one before it. Returns the last carry.
#[inline(always)]
fn hand_on(sums: &[u8], mut carry: u8, out: &mut [u8]) -> u8 {
    for (to, sum) in out.iter_mut().zip(sums) {
        let sum = sum + carry;
        *to = PACKED[usize::from(sum)];
        carry = u8::from(sum > 99);
    }
    carry
}
