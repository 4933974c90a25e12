//! A call held to the reference: its status, what it writes, and what it must leave.

use super::call::Call;
use super::loan::Loan;
use super::reference::{self, END};
use crate::tally::Tally;

/// Holds one call of the side that stands in place of the port.
pub fn hold(tally: &mut Tally, call: Call) {
    let mut loan = Loan::to(call);
    let mut expected = loan.clone();
    let status = (tally.answers)(call, &mut loan);
    let expected_status = answer(call, &mut expected);
    let parts = [
        ("status", status != expected_status),
        ("text", loan.text != expected.text),
        ("record", loan.record != expected.record),
        ("place", loan.place != expected.place),
        ("start", loan.start != expected.start),
    ];
    tally.hold_call(&parts, || call.to_string());
}

/// Answers as the reference says. Returns the status.
pub fn answer(call: Call, loan: &mut Loan) -> u8 {
    let read = match call {
        Call::Read(line) => Some(reference::read(line)),
        Call::Next(text, place) => reference::next(text, place).map(|next| {
            loan.place.cells()[0] = next.past;
            loan.start.cells()[0] = place;
            next.read
        }),
    };
    match read {
        Some(Ok(record)) => {
            loan.record.cells().copy_from_slice(&record);
            0
        }
        Some(Err(status)) => status,
        None => END,
    }
}
