//! The roads by a wrong rule.

use comparison::roads::loan::{ours, Loan, Side};
use comparison::trap::call::Call;

pub mod counted;
pub mod refused;
pub mod written;

const BYTES: &str = "roads, all pairs of 8 bits";
const WORDS: &str = "roads, 16 bits, drawn";
const BORDERS: &str = "roads, 16 bits, at the borders";
const TURNS: &str = "roads, 16 bits, where a round turns";
const LIMITS: &str = "roads, modes and limits";
pub const QUOTIENTS: &str = "roads, equal quotients";
const MARTYPC: &str = "roads, beside MartyPC's own divides";
const BEFORE: &str = "roads, whatever stood there before";

pub const SECTIONS: [&str; 8] = [
    BYTES, WORDS, BORDERS, TURNS, LIMITS, QUOTIENTS, MARTYPC, BEFORE,
];

/// Those of which every call is admitted, and held to the full divide.
pub const ADMITTED: [&str; 4] = [BYTES, WORDS, BORDERS, TURNS];

/// All but that of equal quotients, which has neither signed divides nor refused ones.
const OF_ALL_DIVIDES: &[&str] = &[BYTES, WORDS, BORDERS, TURNS, LIMITS, MARTYPC, BEFORE];

/// Those of which some divides are too wide.
const OF_WIDE: &[&str] = &[BYTES, WORDS, BORDERS, LIMITS, MARTYPC, BEFORE];

/// Those that have calls that are not admitted.
const OF_NOT_ADMITTED: &[&str] = &[LIMITS, BEFORE];

/// A wrong rule by its name, and the sections that have to find it.
pub type Rule = (&'static str, Side, &'static [&'static str]);

/// The port, but that something wrong is made of what it writes after one of these statuses.
fn but_after(
    call: Call,
    loan: &mut Loan,
    statuses: &[u8],
    wrong: impl FnOnce(&mut [u16; 2]),
) -> u8 {
    let status = ours(call, loan);
    if statuses.contains(&status) {
        wrong(&mut loan.roads);
    }
    status
}

/// The same of a divide that is accepted.
fn but_accepted(call: Call, loan: &mut Loan, wrong: impl FnOnce(&mut [u16; 2])) -> u8 {
    but_after(call, loan, &[0], wrong)
}
