//! What is counted, by a wrong rule.

use super::*;
use comparison::refused_flags::Divide;
use comparison::roads::answer::Answer;
use comparison::roads::reference::{counted, rounds, Road};
use comparison::sides;
use comparison::trap::call::REP;
use comparison::trap::reference::quotient;

/// Each wrong rule by its name, and the sections that have to find it.
pub const RULES: [Rule; 30] = [
    (
        "tallies exchanged",
        |call, loan| but_accepted(call, loan, |roads| roads.swap(0, 1)),
        &SECTIONS,
    ),
    (
        "nothing counted",
        |call, loan| but_accepted(call, loan, |roads| *roads = [0, 0]),
        &SECTIONS,
    ),
    (
        "all ones by no borrow",
        |call, loan| but_accepted(call, loan, |roads| *roads = [0, roads[0] + roads[1]]),
        &SECTIONS,
    ),
    (
        "all ones by a bit shifted out",
        |call, loan| but_accepted(call, loan, |roads| *roads = [roads[0] + roads[1], 0]),
        &SECTIONS,
    ),
    (
        "a bit shifted out counted in both",
        |call, loan| but_accepted(call, loan, |roads| roads[1] += roads[0]),
        &[BYTES, WORDS, BORDERS, TURNS, MARTYPC, BEFORE],
    ),
    (
        "no borrow counted in both",
        |call, loan| but_accepted(call, loan, |roads| roads[0] += roads[1]),
        &SECTIONS,
    ),
    (
        "a borrow counted as no borrow",
        |call, loan| by(call, loan, |divide| taken(divide, Road::NoBorrow)),
        OF_ALL_DIVIDES,
    ),
    (
        "a borrow counted as a bit shifted out",
        |call, loan| by(call, loan, |divide| taken(divide, Road::ShiftedOut)),
        &SECTIONS,
    ),
    (
        "the last round not counted",
        |call, loan| {
            by(call, loan, |divide| {
                counted(rounds(divide).take(last(divide)))
            })
        },
        &SECTIONS,
    ),
    (
        "the first round not counted",
        |call, loan| by(call, loan, |divide| counted(rounds(divide).skip(1))),
        &[BYTES, WORDS, BORDERS, TURNS, QUOTIENTS, MARTYPC, BEFORE],
    ),
    (
        "eight rounds at 16 bits",
        |call, loan| by(call, loan, |divide| counted(rounds(divide).take(8))),
        &[WORDS, BORDERS, TURNS, QUOTIENTS, MARTYPC],
    ),
    (
        "at most one by a bit shifted out",
        |call, loan| but_accepted(call, loan, |roads| roads[0] = roads[0].min(1)),
        &[BYTES, WORDS, BORDERS, TURNS, QUOTIENTS, MARTYPC, BEFORE],
    ),
    (
        "a bit shifted out from 2^8 at 16 bits",
        |call, loan| by(call, loan, |divide| from(divide, 0x100)),
        &[WORDS, BORDERS, TURNS, QUOTIENTS, MARTYPC],
    ),
    (
        "a bit shifted out from 2^(N-1)",
        |call, loan| by(call, loan, |divide| from(divide, 1 << (divide.bits - 1))),
        &SECTIONS,
    ),
    (
        "a bit shifted out from one below 2^N",
        |call, loan| by(call, loan, |divide| from(divide, (1 << divide.bits) - 1)),
        &[BYTES, WORDS, BORDERS, TURNS, QUOTIENTS, MARTYPC],
    ),
    (
        "a bit shifted out from one above 2^N",
        |call, loan| by(call, loan, |divide| from(divide, (1 << divide.bits) + 1)),
        &[BYTES, BORDERS, TURNS, QUOTIENTS, MARTYPC],
    ),
    (
        "equal as a borrow",
        |call, loan| by(call, loan, |divide| compared(divide, divide.divisor + 1)),
        &[BYTES, WORDS, BORDERS, TURNS, LIMITS, MARTYPC, BEFORE],
    ),
    (
        "one below as no borrow",
        |call, loan| by(call, loan, |divide| compared(divide, divide.divisor - 1)),
        &[BYTES, WORDS, BORDERS, TURNS, MARTYPC, BEFORE],
    ),
    (
        "the steps of an odd quotient counted",
        |call, loan| but_if(call, loan, is_odd, |roads| roads[1] += 2),
        OF_ALL_DIVIDES,
    ),
    (
        "signed: no borrow counted as a bit shifted out",
        |call, loan| but_if(call, loan, Call::is_signed, |roads| roads.swap(0, 1)),
        OF_ALL_DIVIDES,
    ),
    (
        "signed: the ones of the quotient as answered",
        |call, loan| {
            but_if(call, loan, Call::is_signed, |roads| {
                roads[1] = ones_as_answered(call)
            })
        },
        OF_ALL_DIVIDES,
    ),
    (
        "signed: the dividend as it stands",
        |call, loan| as_it_stands(call, loan, [true, false]),
        &[BYTES, WORDS, BORDERS, TURNS, MARTYPC, BEFORE],
    ),
    (
        "signed: the divisor as it stands",
        |call, loan| as_it_stands(call, loan, [false, true]),
        OF_ALL_DIVIDES,
    ),
    (
        "the lowest divisor as one less",
        |call, loan| lowest_divisor_as(call, loan, |lowest| lowest - 1),
        &[BYTES, WORDS, BORDERS, TURNS, MARTYPC],
    ),
    (
        "the lowest divisor as twice that",
        |call, loan| lowest_divisor_as(call, loan, |lowest| 2 * lowest),
        &[BYTES, WORDS, BORDERS, TURNS, MARTYPC],
    ),
    (
        "the lowest divisor by a bit shifted out",
        |call, loan| but_if(call, loan, is_by_lowest, |roads| roads.swap(0, 1)),
        &[BYTES, WORDS, BORDERS, TURNS, MARTYPC],
    ),
    (
        "REP exchanges the tallies",
        |call, loan| but_if(call, loan, has_rep, |roads| roads.swap(0, 1)),
        &SECTIONS,
    ),
    (
        "REP counts nothing",
        |call, loan| but_if(call, loan, has_rep, |roads| *roads = [0, 0]),
        &SECTIONS,
    ),
    (
        "REP counts one more",
        |call, loan| but_if(call, loan, has_rep, |roads| roads[1] += 1),
        OF_ALL_DIVIDES,
    ),
    (
        "REP counts the ones of the quotient turned",
        |call, loan| {
            let is_turned = |call: Call| call.is_signed() && has_rep(call);
            but_if(call, loan, is_turned, |roads| {
                roads[1] = ones_as_answered(call)
            })
        },
        OF_ALL_DIVIDES,
    ),
];

/// The port, but that something wrong is made of what it counts in some of the divides that are accepted.
fn but_if(
    call: Call,
    loan: &mut Loan,
    which: impl Fn(Call) -> bool,
    wrong: impl FnOnce(&mut [u16; 2]),
) -> u8 {
    but_accepted(call, loan, |roads| {
        if which(call) {
            wrong(roads);
        }
    })
}

fn is_odd(call: Call) -> bool {
    quotient(call).is_some_and(|quotient| quotient % 2 != 0)
}

fn has_rep(call: Call) -> bool {
    call.mode & REP != 0
}

/// The divisor is -2^(N-1).
fn is_by_lowest(call: Call) -> bool {
    call.is_signed() && call.divisor == 1 << (call.bits() - 1)
}

/// With its sign, which REP has turned.
fn ones_as_answered(call: Call) -> u16 {
    sides::ours(call.divide(0)).r.count_ones() as u16
}

/// The port, but that an accepted divide is counted by a wrong rule, from the magnitudes.
fn by(call: Call, loan: &mut Loan, rule: impl FnOnce(Divide) -> Answer) -> u8 {
    but_accepted(call, loan, |roads| {
        *roads = rule(Divide::from(call.divide(0))).roads();
    })
}

/// Each borrow taken for another road.
fn taken(divide: Divide, road: Road) -> Answer {
    let taken = |right| match right {
        Road::Borrow => road,
        _ => right,
    };
    counted(rounds(divide).map(taken))
}

/// The place of the last round.
fn last(divide: Divide) -> usize {
    divide.bits as usize - 1
}

/// A bit counts as shifted out from this number on.
fn from(divide: Divide, least: u64) -> Answer {
    by_limits(divide, [least, divide.divisor])
}

/// It counts as no borrow from this number on.
fn compared(divide: Divide, least: u64) -> Answer {
    by_limits(divide, [1 << divide.bits, least])
}

/// The right rounds, each looked at by wrong limits: of a bit shifted out, and of no borrow.
fn by_limits(divide: Divide, [shifted_out, no_borrow]: [u64; 2]) -> Answer {
    let Divide {
        bits,
        dividend,
        divisor,
        ..
    } = divide;
    let looked_at = (0..bits).rev().map(move |place| {
        let left = (dividend >> (place + 1)) % divisor;
        2 * left + (dividend >> place) % 2
    });
    counted(looked_at.map(|number| match number {
        _ if number >= shifted_out => Road::ShiftedOut,
        _ if number >= no_borrow => Road::NoBorrow,
        _ => Road::Borrow,
    }))
}

/// Without the magnitude of the dividend or of the divisor.
fn as_it_stands(call: Call, loan: &mut Loan, [dividend, divisor]: [bool; 2]) -> u8 {
    by(call, loan, |mut divide| {
        if dividend {
            divide.dividend = call.dividend.into();
        }
        if divisor {
            divide.divisor = call.divisor.into();
        }
        counted(rounds(divide))
    })
}

/// The magnitude of a divisor of -2^(N-1) taken for another.
fn lowest_divisor_as(call: Call, loan: &mut Loan, other: fn(u64) -> u64) -> u8 {
    by(call, loan, |mut divide| {
        if is_by_lowest(call) {
            divide.divisor = other(divide.divisor);
        }
        counted(rounds(divide))
    })
}
