//! What a call has to be answered, written from the scope and not as the chip does it: unpacked digits,
//! added or subtracted one after another as on paper.

use super::call::{Call, Operation};
use super::digits::{packed, unpacked};

/// The most bytes that an operand may have.
pub const LONGEST: usize = 32;

/// The status of each refusal, in the order in which they are looked for.
const STATUSES: [u8; 4] = [20, 21, 22, 23];

/// What a call makes of digits.
#[derive(Clone, Debug, PartialEq, Eq)]
pub struct Sum {
    pub bytes: Vec<u8>,
    /// The carry out of the highest digit, or the borrow.
    pub carry: bool,
}

/// The sum, or the status of the first refusal that applies.
pub fn answer(call: Call) -> Result<Sum, u8> {
    let mut faults = faults(call).into_iter().zip(STATUSES);
    match faults.find(|(applies, _)| *applies) {
        Some((_, status)) => Err(status),
        None => Ok(sum(call)),
    }
}

/// Which of the four refusals apply, in their order: the lengths differ, the length is 0 or too large, a
/// digit is over 9, the room is too short. Where the lengths differ, a refusal that speaks of the length
/// applies if it does for both.
pub fn faults(call: Call) -> [bool; 4] {
    let lengths = [call.x.len(), call.y.len()];
    let mut digits = unpacked(call.x).into_iter().chain(unpacked(call.y));
    [
        lengths[0] != lengths[1],
        lengths.iter().all(|length| !(1..=LONGEST).contains(length)),
        digits.any(|digit| digit > 9),
        lengths.iter().all(|&length| call.room < length),
    ]
}

/// Of digits alone, in operands of one length, however long they are and whatever the room is.
pub fn sum(call: Call) -> Sum {
    let one = match call.operation {
        Operation::Add => add_digit,
        Operation::Subtract => subtract_digit,
    };
    let mut carry = call.carry;
    let mut digits = Vec::new();
    for (x, y) in unpacked(call.x).into_iter().zip(unpacked(call.y)) {
        let (digit, next) = one(x, y, carry);
        digits.push(digit);
        carry = next;
    }
    let bytes = packed(&digits);
    Sum { bytes, carry }
}

/// The digit to write, and whether one is carried.
fn add_digit(x: u8, y: u8, carry: bool) -> (u8, bool) {
    let sum = x + y + u8::from(carry);
    (sum % 10, sum >= 10)
}

/// The digit to write, and whether one is borrowed, which is worth ten here.
fn subtract_digit(x: u8, y: u8, borrow: bool) -> (u8, bool) {
    let taken = y + u8::from(borrow);
    match x < taken {
        true => (10 + x - taken, true),
        false => (x - taken, false),
    }
}
