//! A call held to the reference, to the port's answer by value and to MartyPC's own Rust: its status, the record,
//! the steps, and the numbers beside them.

use super::call::{Call, Outcome, Record};
use super::loan::Loan;
use super::reference;
use crate::sides;
use crate::tally::Tally;
use oracle::draw::Draw;

/// The names of what may differ, and whether it does.
pub type Parts = [(&'static str, bool); 9];

/// What stands where the steps go before a call. No operation has so many, so that it shows whether they were
/// written; its lower bits are any, so that it shows whether they were mixed with the steps.
pub fn unwritten(draw: &mut Draw) -> u16 {
    draw.bits() as u16 | 0x8000
}

/// Holds one call of the side that stands in place of the port.
pub fn hold(tally: &mut Tally, draw: &mut Draw, call: Call, record: Record) {
    let mut loan = Loan::over(record, unwritten(draw));
    let status = (tally.registers)(call, &mut loan);
    let expected = reference::outcome(call, record);
    let parts = parts(tally, call, record, (&loan, status), &expected);
    tally.hold_call(&parts, || format!("{call}, over {record}"));
}

/// What differs in what came of a call over this record: the loan as it was left, and the status.
pub fn parts(
    tally: &Tally,
    call: Call,
    record: Record,
    (loan, status): (&Loan, u8),
    expected: &Outcome,
) -> Parts {
    let given = loan.outcome(status);
    let by_value = reference::outcome_by(tally.ours, call, record);
    let martypc = reference::outcome_by(sides::theirs, call, record);
    [
        ("status", status != expected.status),
        ("AX", given.record.ax != expected.record.ax),
        ("DX", given.record.dx != expected.record.dx),
        ("flags", given.record.flags != expected.record.flags),
        ("total", given.record.total != expected.record.total),
        ("steps", given.steps != expected.steps),
        ("numbers beside", loan.is_written_beside()),
        ("the answer by value", given != by_value),
        ("MartyPC's answer", given != martypc),
    ]
}
