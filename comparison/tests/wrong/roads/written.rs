//! What is written and what is left, by a wrong rule.

use super::*;

/// The statuses of a call that is not admitted, and those of a refused divide.
const NOT_ADMITTED: &[u8] = &[4, 5];
const REFUSED: &[u8] = &[6, 8, 9];
const EITHER: &[u8] = &[4, 5, 6, 8, 9];

/// Each wrong rule by its name, and the sections that have to find it.
pub const RULES: [Rule; 15] = [
    (
        "both unwritten after a refusal",
        |call, loan| unwritten_after(call, loan, EITHER, [true, true]),
        OF_ALL_DIVIDES,
    ),
    (
        "the first unwritten after a refusal",
        |call, loan| unwritten_after(call, loan, EITHER, [true, false]),
        OF_ALL_DIVIDES,
    ),
    (
        "the second unwritten after a refusal",
        |call, loan| unwritten_after(call, loan, EITHER, [false, true]),
        OF_ALL_DIVIDES,
    ),
    (
        "unwritten after 4 and 5",
        |call, loan| unwritten_after(call, loan, NOT_ADMITTED, [true, true]),
        OF_NOT_ADMITTED,
    ),
    (
        "unwritten after 6, 8 and 9",
        |call, loan| unwritten_after(call, loan, REFUSED, [true, true]),
        OF_ALL_DIVIDES,
    ),
    (
        "the status as a tally",
        |call, loan| {
            let status = ours(call, loan);
            if status != 0 {
                loan.roads[0] = status.into();
            }
            status
        },
        OF_ALL_DIVIDES,
    ),
    (
        "a tally of 0 unwritten",
        |call, loan| {
            mixed(
                call,
                loan,
                |before, tally| if tally == 0 { before } else { tally },
            )
        },
        &SECTIONS,
    ),
    (
        "added to what stood there",
        |call, loan| mixed(call, loan, u16::wrapping_add),
        &SECTIONS,
    ),
    (
        "cut by what stood there",
        |call, loan| mixed(call, loan, |before, tally| before & tally),
        &SECTIONS,
    ),
    (
        "written as bytes",
        |call, loan| mixed(call, loan, |before, tally| before & 0xFF00 | tally),
        &SECTIONS,
    ),
    ("written as doubles", doubles, &SECTIONS),
    ("written one place further", one_further, &SECTIONS),
    (
        "the number behind written",
        |call, loan| beside(call, loan, |_| true, |loan| loan.after[0] = 0),
        &SECTIONS,
    ),
    (
        "the number before written",
        |call, loan| beside(call, loan, |_| true, |loan| loan.before[7] = 0),
        &SECTIONS,
    ),
    (
        "the number behind written after a refusal",
        |call, loan| beside(call, loan, |status| status != 0, |loan| loan.after[0] = 0),
        OF_ALL_DIVIDES,
    ),
];

fn unwritten_after(call: Call, loan: &mut Loan, statuses: &[u8], which: [bool; 2]) -> u8 {
    let before = loan.roads;
    but_after(call, loan, statuses, |roads| {
        for place in [0, 1] {
            if which[place] {
                roads[place] = before[place];
            }
        }
    })
}

/// The tallies of an accepted divide, made wrong by what stood in their places.
fn mixed(call: Call, loan: &mut Loan, wrong: fn(u16, u16) -> u16) -> u8 {
    let before = loan.roads;
    but_accepted(call, loan, |roads| {
        for place in [0, 1] {
            roads[place] = wrong(before[place], roads[place]);
        }
    })
}

/// Each as a number of 32 bits.
fn doubles(call: Call, loan: &mut Loan) -> u8 {
    let status = ours(call, loan);
    let [first, second] = loan.roads;
    loan.roads = [first, 0];
    [loan.after[0], loan.after[1]] = [second, 0];
    status
}

fn one_further(call: Call, loan: &mut Loan) -> u8 {
    let before = loan.roads[0];
    let status = ours(call, loan);
    let [first, second] = loan.roads;
    loan.roads = [before, first];
    loan.after[0] = second;
    status
}

/// The port, but that something else of the loan is changed after some statuses.
fn beside(call: Call, loan: &mut Loan, which: fn(u8) -> bool, wrong: fn(&mut Loan)) -> u8 {
    let status = ours(call, loan);
    if which(status) {
        wrong(loan);
    }
    status
}
