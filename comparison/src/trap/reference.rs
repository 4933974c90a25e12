//! What a call has to be answered, written from the rule and not as the port does it: the true division in 64
//! bits, and whether its quotient fits.

use super::call::{Answer, Call};
use std::ops::RangeInclusive;

/// The bits that a mode may have.
const ALL_MODES: u8 = 0x07;

/// The status of each refusal of a call, in the order in which they are looked for.
const STATUSES: [u8; 2] = [4, 5];

pub fn answer(call: Call) -> Answer {
    let mut faults = faults(call).into_iter().zip(STATUSES);
    match faults.find(|(applies, _)| *applies) {
        Some((_, status)) => Answer::refused(status),
        None => Answer::told(traps(call)),
    }
}

/// Which of the two refusals apply, in their order: the mode has a bit that is none, an operand is too large
/// for the width. Where the mode is none, its lowest bit tells the width all the same.
pub fn faults(call: Call) -> [bool; 2] {
    let bits = call.bits();
    [
        call.mode > ALL_MODES,
        u64::from(call.dividend) >> (2 * bits) != 0 || u64::from(call.divisor) >> bits != 0,
    ]
}

/// Whether an admitted divide is refused: the divisor is 0, or the quotient, cut towards zero, is outside its
/// range.
pub fn traps(call: Call) -> bool {
    match quotient(call) {
        None => true,
        Some(quotient) => !range(call).contains(&quotient),
    }
}

/// Nothing by a divisor of 0. REP does not matter: the range has both signs of each number that it has.
pub fn quotient(call: Call) -> Option<i64> {
    let bits = call.bits();
    let dividend = number(call, call.dividend.into(), 2 * bits);
    dividend.checked_div(number(call, call.divisor.into(), bits))
}

/// The number that so many bits are, in two's complement if the divide is signed.
fn number(call: Call, value: i64, bits: u32) -> i64 {
    let is_negative = call.is_signed() && value >= 1 << (bits - 1);
    match is_negative {
        true => value - (1 << bits),
        false => value,
    }
}

/// The lowest number of N bits is no quotient that the chip lets through.
fn range(call: Call) -> RangeInclusive<i64> {
    match call.is_signed() {
        true => {
            let most = (1 << (call.bits() - 1)) - 1;
            -most..=most
        }
        false => 0..=(1 << call.bits()) - 1,
    }
}
