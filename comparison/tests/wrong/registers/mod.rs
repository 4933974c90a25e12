//! Operations over a register record by a wrong rule.

use comparison::registers::call::{Call, Outcome, Record};
use comparison::registers::loan::{ours, Loan, Side};

pub mod refused;
pub mod stored;

const DIVIDES: &str = "registers, 8-bit divides";
const MULTIPLIES: &str = "registers, 8-bit multiplies";
const ADJUSTS: &str = "registers, AAA, AAS, DAA, DAS";
const AAD: &str = "registers, AAD";
const EDGES: &str = "registers, edges";
const WORDS: &str = "registers, 16 bits, drawn";
const TOTALS: &str = "registers, totals about the largest";
const LIMITS: &str = "registers, limits of Y, words as flags";
const OPS: &str = "registers, all ops and modes";
const FAULTS: &str = "registers, several faults at once";
const SEQUENCES: &str = "registers, sequences";
const END: &str = "registers, sequences into the end";

pub const SECTIONS: [&str; 12] = [
    DIVIDES, MULTIPLIES, ADJUSTS, AAD, EDGES, WORDS, TOTALS, LIMITS, OPS, FAULTS, SEQUENCES, END,
];

/// Those of which every call is admitted, and no total is full.
pub const ADMITTED: [&str; 6] = [DIVIDES, MULTIPLIES, ADJUSTS, AAD, EDGES, WORDS];

/// A wrong rule by its name, and the sections that have to find it.
pub type Rule = (&'static str, Side, &'static [&'static str]);

/// The port, but that something wrong is made of what came of a call, which is given the record before it.
fn but(call: Call, loan: &mut Loan, wrong: impl FnOnce(Record, &mut Outcome)) -> u8 {
    let before = loan.record();
    let status = ours(call, loan);
    let mut given = loan.outcome(status);
    wrong(before, &mut given);
    loan.put(given.record, given.steps);
    given.status
}

/// The same, of calls that have one of these statuses alone.
fn but_after(
    call: Call,
    loan: &mut Loan,
    statuses: &[u8],
    wrong: impl FnOnce(Record, &mut Outcome),
) -> u8 {
    but(call, loan, |before, given| {
        if statuses.contains(&given.status) {
            wrong(before, given);
        }
    })
}

/// The port, handed another call and another record, which has its registers back unless it is done.
fn read_as(call: Call, loan: &mut Loan, record: Record) -> u8 {
    let before = loan.record();
    loan.put(record, loan.steps.lent);
    let status = ours(call, loan);
    if status != 0 {
        loan.ax.lent = before.ax;
        loan.dx.lent = before.dx;
    }
    status
}

/// What would come of a call if no total were ever full: over one of 0.
fn of_empty(call: Call, before: Record) -> Outcome {
    let mut loan = Loan::over(Record { total: 0, ..before }, 0);
    let status = ours(call, &mut loan);
    loan.outcome(status)
}
