//! What an admitted request is answered, written from the charts (docs/CHARTS.md) in 64 bits and not as either
//! side does it: results by the host's own arithmetic, flags and steps by the rules that count them at once.

use super::call::MULTIPLY;
use crate::asked::Asked;
use crate::sides::Numbers;
use crate::trap::call::DIVIDE;

mod adjust;
mod divide;
mod multiply;

const C: u16 = 0x0001;
const P: u16 = 0x0004;
const A: u16 = 0x0010;
const Z: u16 = 0x0040;
const S: u16 = 0x0080;
const O: u16 = 0x0800;

/// Takes the request for one that is admitted: a multiply, a divide or an adjust.
pub fn numbers(asked: Asked) -> Numbers {
    match asked.op {
        MULTIPLY => multiply::numbers(asked),
        DIVIDE => divide::numbers(asked),
        _ => adjust::numbers(asked),
    }
}

/// The word of those flags that are set.
fn word(flags: &[(u16, bool)]) -> u16 {
    flags.iter().filter(|flag| flag.1).map(|flag| flag.0).sum()
}

/// S, Z and P of a result of so many bits.
fn szp(result: u64, bits: u32) -> [(u16, bool); 3] {
    [
        (S, result >> (bits - 1) != 0),
        (Z, result == 0),
        (P, (result % 256).count_ones() & 1 == 0),
    ]
}

/// A number, mod 2 to the bits.
fn wrapped(number: i64, bits: u32) -> u64 {
    number.rem_euclid(1 << bits) as u64
}
