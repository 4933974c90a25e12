//! What is refused, in which order, and what is told of it, by a wrong rule.

use super::*;
use comparison::refused_flags::Divide;
use comparison::roads::reference::{counted, faults, rounds};
use comparison::trap::call::{REP, WORD};
use comparison::trap::reference::quotient;

/// The refusals by their places in the order in which they are tested.
const STATUSES: [u8; 5] = [4, 5, 6, 8, 9];

/// Those that have divides at the very ends of what is accepted.
const OF_ENDS: &[&str] = &[BYTES, BORDERS, MARTYPC];

/// Each wrong rule by its name, and the sections that have to find it.
pub const RULES: [Rule; 32] = [
    (
        "zero divisor with the tallies of its walk",
        |call, loan| with_its_walk(call, loan, 6),
        OF_ALL_DIVIDES,
    ),
    (
        "too wide with the tallies of its walk",
        |call, loan| with_its_walk(call, loan, 8),
        OF_WIDE,
    ),
    (
        "sign range with the tallies of its walk",
        |call, loan| with_its_walk(call, loan, 9),
        OF_ALL_DIVIDES,
    ),
    (
        "sign range let through",
        |call, loan| let_through(call, loan, 9, |_| true),
        OF_ALL_DIVIDES,
    ),
    (
        "the lowest quotient let through",
        |call, loan| let_through(call, loan, 9, |call| is_lowest(call, -1)),
        OF_ENDS,
    ),
    (
        "with REP the lowest quotient let through",
        |call, loan| let_through(call, loan, 9, |call| is_lowest(call, 1) && has_rep(call)),
        OF_ENDS,
    ),
    (
        "the first too wide let through",
        |call, loan| let_through(call, loan, 8, |call| border(call) == [0, 0]),
        OF_ENDS,
    ),
    (
        "0 by 0 let through",
        |call, loan| let_through(call, loan, 6, |call| call.dividend == 0),
        &[BYTES, BORDERS, LIMITS],
    ),
    (
        "too wide from one below",
        |call, loan| refuse(call, loan, |call| border(call) == [1, 0], 8),
        &[BYTES, BORDERS, QUOTIENTS, MARTYPC],
    ),
    (
        "sign range of unsigned",
        |call, loan| refuse(call, loan, is_unsigned_and_high, 9),
        &SECTIONS,
    ),
    (
        "the lowest divisor as 0",
        |call, loan| refuse(call, loan, is_by_lowest, 6),
        OF_ALL_DIVIDES,
    ),
    (
        "the lowest dividend as 0",
        |call, loan| {
            let status = ours(call, loan);
            match status == 8 && is_of_lowest(call) {
                true => 0,
                false => status,
            }
        },
        &[BYTES, BORDERS, LIMITS],
    ),
    (
        "zero divisor as too wide",
        |call, loan| restated(call, loan, 6, 8),
        OF_ALL_DIVIDES,
    ),
    (
        "too wide as zero divisor",
        |call, loan| restated(call, loan, 8, 6),
        OF_WIDE,
    ),
    (
        "sign range as too wide",
        |call, loan| restated(call, loan, 9, 8),
        OF_ALL_DIVIDES,
    ),
    (
        "5 before 4",
        |call, loan| before(call, loan, 4, 5),
        OF_NOT_ADMITTED,
    ),
    (
        "6 before 4",
        |call, loan| before(call, loan, 4, 6),
        OF_NOT_ADMITTED,
    ),
    (
        "8 before 4",
        |call, loan| before(call, loan, 4, 8),
        OF_NOT_ADMITTED,
    ),
    (
        "9 before 4",
        |call, loan| before(call, loan, 4, 9),
        OF_NOT_ADMITTED,
    ),
    (
        "6 before 5",
        |call, loan| before(call, loan, 5, 6),
        OF_NOT_ADMITTED,
    ),
    (
        "8 before 5",
        |call, loan| before(call, loan, 5, 8),
        OF_NOT_ADMITTED,
    ),
    (
        "9 before 5",
        |call, loan| before(call, loan, 5, 9),
        OF_NOT_ADMITTED,
    ),
    ("9 before 8", |call, loan| before(call, loan, 8, 9), OF_WIDE),
    (
        "a mode above 07 let through",
        |call, loan| {
            let mode = call.mode & 0x07;
            ours(Call { mode, ..call }, loan)
        },
        OF_NOT_ADMITTED,
    ),
    (
        "a mode above 07 let through if it has no operand too large",
        |call, loan| {
            let mode = call.mode & 0x07;
            match faults(call) {
                [true, false, ..] => ours(Call { mode, ..call }, loan),
                _ => ours(call, loan),
            }
        },
        OF_NOT_ADMITTED,
    ),
    (
        "a wide dividend of 8 bits cut",
        |call, loan| {
            let limit = if is_word(call) { u32::MAX } else { 0xFFFF };
            let dividend = call.dividend & limit;
            ours(Call { dividend, ..call }, loan)
        },
        OF_NOT_ADMITTED,
    ),
    (
        "a wide divisor of 8 bits cut",
        |call, loan| {
            let limit = if is_word(call) { u16::MAX } else { 0xFF };
            let divisor = call.divisor & limit;
            ours(Call { divisor, ..call }, loan)
        },
        OF_NOT_ADMITTED,
    ),
    (
        "limits of 8 bits at 16",
        |call, loan| {
            let is_large = |call: Call| call.dividend > 0xFFFF || call.divisor > 0xFF;
            refuse(call, loan, is_large, 5)
        },
        &[WORDS, BORDERS, TURNS, LIMITS, QUOTIENTS, MARTYPC, BEFORE],
    ),
    (
        "limits one lower",
        |call, loan| {
            let is_at_limit = |call: Call| call.dividend == 0xFFFF || call.divisor == 0xFF;
            refuse(call, loan, |call| !is_word(call) && is_at_limit(call), 5)
        },
        &[BYTES, LIMITS, QUOTIENTS],
    ),
    (
        "REP refused",
        |call, loan| refuse(call, loan, has_rep, 4),
        &SECTIONS,
    ),
    (
        "REP for signed",
        |call, loan| {
            let mode = call.mode | call.mode >> 1 & 0x02;
            ours(Call { mode, ..call }, loan)
        },
        &SECTIONS,
    ),
    (
        "signs not looked at",
        |call, loan| {
            let mode = call.mode & !0x02;
            ours(Call { mode, ..call }, loan)
        },
        OF_ALL_DIVIDES,
    ),
];

/// The tallies of the rounds, whatever they are refused for.
fn walk(call: Call) -> [u16; 2] {
    counted(rounds(Divide::from(call.divide(0)))).roads()
}

fn with_its_walk(call: Call, loan: &mut Loan, status: u8) -> u8 {
    but_after(call, loan, &[status], |roads| *roads = walk(call))
}

/// Accepts some of the divides that have this status.
fn let_through(call: Call, loan: &mut Loan, status: u8, which: fn(Call) -> bool) -> u8 {
    let given = ours(call, loan);
    match given == status && which(call) {
        true => {
            loan.roads = walk(call);
            0
        }
        false => given,
    }
}

/// Refuses some of the divides that can be asked with this status.
fn refuse(call: Call, loan: &mut Loan, which: impl Fn(Call) -> bool, status: u8) -> u8 {
    let given = ours(call, loan);
    match matches!(given, 0 | 6 | 8 | 9) && which(call) {
        true => {
            loan.roads = [0, 0];
            status
        }
        false => given,
    }
}

/// One status for another.
fn restated(call: Call, loan: &mut Loan, right: u8, wrong: u8) -> u8 {
    match ours(call, loan) {
        status if status == right => wrong,
        status => status,
    }
}

/// One status for another where both apply.
fn before(call: Call, loan: &mut Loan, right: u8, wrong: u8) -> u8 {
    let mut faults = faults(call).into_iter().zip(STATUSES);
    match faults.any(|fault| fault == (true, wrong)) {
        true => restated(call, loan, right, wrong),
        false => ours(call, loan),
    }
}

/// How far the dividend's magnitude is below 2^N times the divisor's, or above it.
fn border(call: Call) -> [u64; 2] {
    let divide = Divide::from(call.divide(0));
    let border = divide.divisor << divide.bits;
    [
        border.saturating_sub(divide.dividend),
        divide.dividend.saturating_sub(border),
    ]
}

/// The quotient is 2^(N-1), with this sign.
fn is_lowest(call: Call, sign: i64) -> bool {
    quotient(call) == Some(sign << (call.bits() - 1))
}

fn is_unsigned_and_high(call: Call) -> bool {
    let high = 1 << (call.bits() - 1);
    !call.is_signed() && quotient(call).is_some_and(|quotient| quotient & high != 0)
}

fn is_by_lowest(call: Call) -> bool {
    call.is_signed() && call.divisor == 1 << (call.bits() - 1)
}

fn is_of_lowest(call: Call) -> bool {
    call.is_signed() && call.dividend == 1 << (2 * call.bits() - 1)
}

fn has_rep(call: Call) -> bool {
    call.mode & REP != 0
}

fn is_word(call: Call) -> bool {
    call.mode & WORD != 0
}
