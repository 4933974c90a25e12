//! A call held to the reference and to full divides: its status, the two numbers that it writes, and the numbers
//! beside them.

use super::answer::Answer;
use super::full::{self, Names};
use super::loan::Loan;
use super::reference;
use crate::sides;
use crate::tally::Tally;
use crate::trap::call::Call;
use oracle::draw::Draw;
use oracle::request::ALL_FLAGS;

const FULL_DIVIDE: Names = [
    "the full divide's status",
    "the full divide's ones",
    "the full divide's steps",
];

const MARTYPC: Names = ["MartyPC's status", "MartyPC's ones", "MartyPC's steps"];

/// What stands in the two numbers before a call. No tally is so large, so that it shows whether they were written;
/// the lower bits are any, so that it shows whether they were mixed with a tally.
pub fn unwritten(draw: &mut Draw) -> [u16; 2] {
    let bits = draw.bits();
    [bits as u16 | 0x8000, (bits >> 16) as u16 | 0x8000]
}

/// The flags of a full divide, of which none may matter.
pub fn flags(draw: &mut Draw) -> u16 {
    draw.bits() as u16 & ALL_FLAGS
}

/// Holds one call of the side that stands in place of the port to the reference, and to the port's full divide.
pub fn hold(tally: &mut Tally, draw: &mut Draw, call: Call) {
    let before = unwritten(draw);
    hold_over(tally, draw, before, call);
}

/// The same, with these in the numbers before the call.
pub fn hold_over(tally: &mut Tally, draw: &mut Draw, before: [u16; 2], call: Call) {
    let (given, beside) = ask(tally, before, call);
    let expected = reference::answer(call);
    let divided = (tally.ours)(call.divide(flags(draw)));
    let [status, ones, steps] = full::parts(FULL_DIVIDE, call, &given, &divided);
    let parts = [
        ("status", given.status != expected.status),
        (
            "ones by a bit shifted out",
            given.shifted_out != expected.shifted_out,
        ),
        ("ones by no borrow", given.no_borrow != expected.no_borrow),
        ("numbers beside", beside),
        status,
        ones,
        steps,
    ];
    tally.hold_call(&parts, || format!("roads, {call}"));
}

/// Holds one call to MartyPC's own divide.
pub fn hold_to_martypc(tally: &mut Tally, draw: &mut Draw, call: Call) {
    let (given, beside) = ask(tally, unwritten(draw), call);
    let divided = sides::theirs(call.divide(flags(draw)));
    let [status, ones, steps] = full::parts(MARTYPC, call, &given, &divided);
    let parts = [("numbers beside", beside), status, ones, steps];
    tally.hold_call(&parts, || format!("roads, {call}"));
}

/// What comes of a call, and whether a number beside those that are lent was written.
pub fn ask(tally: &Tally, before: [u16; 2], call: Call) -> (Answer, bool) {
    let mut loan = Loan::over(before);
    let status = (tally.roads)(call, &mut loan);
    (loan.answer(status), loan.is_written_beside())
}
