//! A call held to the reference: its status, the bytes that it writes, and the bytes that it must leave.

use super::call::Call;
use super::loan::Loan;
use super::reference;
use crate::tally::Tally;

/// Holds one call of the side that stands in place of the port.
pub fn hold(tally: &mut Tally, call: Call) {
    let mut loan = Loan::to(call);
    let mut expected = loan.clone();
    let status = (tally.packed)(call, &mut loan);
    let expected_status = match reference::answer(call) {
        Ok(sum) => {
            expected.out = expected.out.with(&sum.bytes);
            expected.carry = expected.carry.with(&[sum.carry.into()]);
            0
        }
        Err(status) => status,
    };
    let parts = [
        ("status", status != expected_status),
        ("x", loan.x != expected.x),
        ("y", loan.y != expected.y),
        ("result", loan.out != expected.out),
        ("carry", loan.carry != expected.carry),
    ];
    tally.hold_call(&parts, || call.to_string());
}
