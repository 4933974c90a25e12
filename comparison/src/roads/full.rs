//! What the answer of a full divide says of the roads: its quotient has as many ones as both tallies together, and
//! the chart counts its steps from the second. So it tells both, without saying either.

use super::answer::Answer;
use crate::sides::Numbers;
use crate::trap::call::Call;

/// Whose divide it is: the names of its status, its ones and its steps.
pub type Names = [&'static str; 3];

/// What differs between the roads told of a call and a full divide of the same.
pub fn parts(
    names: Names,
    call: Call,
    told: &Answer,
    divided: &Numbers,
) -> [(&'static str, bool); 3] {
    let is_accepted = divided.status == 0;
    let magnitude = quotient(call, divided.r);
    let ones = if is_accepted {
        magnitude.count_ones()
    } else {
        0
    };
    let [status, of_quotient, of_chart] = names;
    [
        (status, told.status != divided.status),
        (of_quotient, told.ones() != ones),
        (
            of_chart,
            is_accepted && steps(call, told, magnitude) != u32::from(divided.steps),
        ),
    ]
}

/// The magnitude of an accepted quotient, its sign put aside: that of both operands, turned once more by REP.
fn quotient(call: Call, r: u16) -> u32 {
    let quotient = u32::from(r);
    match call.is_signed() {
        true => quotient.min((1 << call.bits()) - quotient),
        false => quotient,
    }
}

/// The steps of an accepted divide with these roads.
fn steps(call: Call, told: &Answer, quotient: u32) -> u32 {
    let around = match call.is_signed() {
        true => 25 + sign_steps(call),
        false => 13,
    };
    let odd = if quotient % 2 == 1 { 2 } else { 0 };
    around + 8 * call.bits() + u32::from(told.no_borrow) + odd
}

/// What a signed divide takes for the signs of its operands.
fn sign_steps(call: Call) -> u32 {
    let is_negative = |value: u32, bits: u32| value >> (bits - 1) != 0;
    let of_dividend = match is_negative(call.dividend, 2 * call.bits()) {
        true => 7,
        false => 3,
    };
    let of_divisor = match is_negative(call.divisor.into(), call.bits()) {
        true => 5,
        false => 6,
    };
    of_dividend + of_divisor
}
