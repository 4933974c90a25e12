//! What a call has to be answered, written from the rule and not as the port does it: the refusals by the true
//! division, and then the long division of the magnitudes, both in 64 bits. No bit leaves what is left there, so
//! that the road of a round is seen by comparing.

use super::answer::Answer;
use crate::refused_flags::Divide;
use crate::trap::call::Call;
use crate::trap::reference::{faults as faults_of_call, quotient};

/// The status of each refusal, in the order in which they are looked for.
const STATUSES: [u8; 5] = [4, 5, 6, 8, 9];

pub fn answer(call: Call) -> Answer {
    let mut faults = faults(call).into_iter().zip(STATUSES);
    match faults.find(|(applies, _)| *applies) {
        Some((_, status)) => Answer::refused(status),
        None => counted(rounds(Divide::from(call.divide(0)))),
    }
}

/// Which of the five refusals apply, in their order: the mode has a bit that is none, an operand is too large for
/// the width, the divisor is 0, the quotient's magnitude needs more than N bits, a signed one's more than N - 1.
/// The last three are of the numbers as they stand, whether the first two apply or not.
pub fn faults(call: Call) -> [bool; 5] {
    let [mode, size] = faults_of_call(call);
    let magnitude = quotient(call).map(i64::unsigned_abs);
    let needs_more_than = |bits: u32| magnitude.is_some_and(|magnitude| magnitude >> bits != 0);
    [
        mode,
        size,
        magnitude.is_none(),
        needs_more_than(call.bits()),
        call.is_signed() && needs_more_than(call.bits() - 1),
    ]
}

/// How a round comes by its bit of the quotient. The first two roads give a 1.
#[derive(Clone, Copy, Debug, PartialEq, Eq)]
pub enum Road {
    ShiftedOut,
    NoBorrow,
    Borrow,
}

/// The road of each of the N rounds, the first one first. Each takes the next bit of the dividend, from the top of
/// its lower half on, down to what is left so far; before the first that is the upper half.
pub fn rounds(divide: Divide) -> impl Iterator<Item = Road> {
    let Divide {
        bits,
        dividend,
        divisor,
        ..
    } = divide;
    let mut left = dividend >> bits;
    (0..bits).rev().map(move |place| {
        left = 2 * left + (dividend >> place) % 2;
        let road = match left {
            _ if left >= 1 << bits => Road::ShiftedOut,
            _ if left >= divisor => Road::NoBorrow,
            _ => Road::Borrow,
        };
        if road != Road::Borrow {
            left -= divisor;
        }
        road
    })
}

/// The ones by each road.
pub fn counted(rounds: impl Iterator<Item = Road>) -> Answer {
    let mut answer = Answer::new(0, [0, 0]);
    for road in rounds {
        match road {
            Road::ShiftedOut => answer.shifted_out += 1,
            Road::NoBorrow => answer.no_borrow += 1,
            Road::Borrow => {}
        }
    }
    answer
}
