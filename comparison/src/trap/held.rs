//! A call held to the reference and to full divides: its status, the byte that it writes, and the bytes beside it.

use super::call::{Answer, Call};
use super::loan::Loan;
use super::reference;
use crate::sides;
use crate::tally::Tally;

/// What stands in the byte before a call. It is neither 0 nor 1, so that it shows whether it was written.
pub const UNWRITTEN: u8 = 0xFF;

/// Holds one call of the side that stands in place of the port to the reference, and to the port's full divide
/// with these flags.
pub fn hold(tally: &mut Tally, call: Call, flags: u16) {
    hold_over(tally, UNWRITTEN, call, flags);
}

/// The same, with this in the byte before the call.
pub fn hold_over(tally: &mut Tally, before: u8, call: Call, flags: u16) {
    let (given, beside) = ask(tally, before, call);
    let expected = reference::answer(call);
    let divided = (tally.ours)(call.divide(flags));
    let parts = [
        ("status", given.status != expected.status),
        ("trap", given.trap != expected.trap),
        ("bytes beside trap", beside),
        (
            "the full divide",
            given != Answer::of_divide(divided.status),
        ),
    ];
    tally.hold_call(&parts, || format!("would trap, {call}"));
}

/// Holds one call to MartyPC's own divide, with these flags, which is refused exactly if the call says so.
pub fn hold_to_martypc(tally: &mut Tally, call: Call, flags: u16) {
    let (given, beside) = ask(tally, UNWRITTEN, call);
    let divided = sides::theirs(call.divide(flags));
    let parts = [
        ("bytes beside trap", beside),
        (
            "MartyPC's divide",
            given != Answer::of_divide(divided.status),
        ),
    ];
    tally.hold_call(&parts, || format!("would trap, {call}"));
}

/// What comes of a call, and whether a byte beside the one that is lent was written.
fn ask(tally: &Tally, before: u8, call: Call) -> (Answer, bool) {
    let mut loan = Loan::over(before);
    let status = (tally.trap)(call, &mut loan);
    let trap = *loan.trap();
    (Answer { status, trap }, loan != Loan::over(trap))
}
