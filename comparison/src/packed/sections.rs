//! The sections of packed digits.

use super::call::{Call, Operation};
use super::digits::put;
use super::held::hold;
use super::loan::Loan;
use super::reference::{self, Sum, LONGEST};
use super::runs::Run;
use super::strings::{any, operands, spoil};
use crate::form::Form;
use crate::section::Section;
use crate::tally::Tally;
use oracle::draw::Draw;

/// Both operations, with the carry both ways.
fn hold_each(tally: &mut Tally, x: &[u8], y: &[u8]) {
    for operation in Operation::ALL {
        hold_carries(tally, operation, x, y);
    }
}

/// The carry both ways.
fn hold_carries(tally: &mut Tally, operation: Operation, x: &[u8], y: &[u8]) {
    for carry in [false, true] {
        hold(tally, Call::new(operation, x, y, carry));
    }
}

/// A part is a byte of X. The same in both forms.
pub fn bytes() -> Section {
    Section::of_calls(
        "packed, all pairs of bytes, digits or not",
        256,
        |part, tally| {
            for y in 0x00..=0xFF {
                hold_each(tally, &[part as u8], &[y]);
            }
        },
    )
}

/// Every length about the limits, and some that pass if only their lowest eight bits are read.
fn near_and_far() -> Vec<usize> {
    (0..=LONGEST + 2).chain([256, 260, 288, 300]).collect()
}

/// A part is a length of X, with every room. Y has the same length, one beside it, one that is the same in
/// its lowest eight bits, or any.
pub fn lengths(form: Form) -> Section {
    let lengths = near_and_far();
    let parts = lengths.len() as u64;
    Section::of_calls("packed, lengths and rooms", parts, move |part, tally| {
        let mut draw = form.draw(15, part);
        let x = lengths[part as usize];
        for room in (0..=40).chain([300]) {
            for _ in 0..form.choose(200, 5) {
                let other = draw.pick(&lengths);
                for y in [x, x.saturating_sub(1), x + 1, x + 256, other] {
                    hold_lengths(tally, &mut draw, [x, y], room);
                }
            }
        }
    })
}

/// Both operations on strings of these lengths, each spoilt as often as not.
fn hold_lengths(tally: &mut Tally, draw: &mut Draw, lengths: [usize; 2], room: usize) {
    for operation in Operation::ALL {
        let [x, y] = &lengths.map(|length| {
            let mut string = any(draw, length);
            if draw.below(2) == 0 {
                spoil(draw, &mut string);
            }
            string
        });
        let call = Call::new(operation, x, y, draw.below(2) == 0);
        hold(tally, call.in_room(room));
    }
}

/// A part is a length, with every run of it.
pub fn runs(form: Form) -> Section {
    Section::of_calls(
        "packed, runs of 9s and 0s",
        LONGEST as u64,
        move |part, tally| {
            let mut draw = form.draw(16, part);
            for run in Run::all(part as usize + 1) {
                for operation in Operation::ALL {
                    for _ in 0..form.choose(50, 1) {
                        let [x, y] = run.operands(&mut draw, operation);
                        hold_carries(tally, operation, &x, &y);
                    }
                }
            }
        },
    )
}

/// A part is a length, with every place in it.
pub fn over_nine(form: Form) -> Section {
    Section::of_calls(
        "packed, a digit over 9 in every place",
        LONGEST as u64,
        move |part, tally| {
            let mut draw = form.draw(17, part);
            let length = part as usize + 1;
            for place in 0..2 * length {
                for digit in 10..=15 {
                    for _ in 0..form.choose(50, 1) {
                        hold_over_nine(tally, &mut draw, length, place, digit);
                    }
                }
            }
        },
    )
}

/// Strings that are good but for one digit: first of X, then of Y.
fn hold_over_nine(tally: &mut Tally, draw: &mut Draw, length: usize, place: usize, digit: u8) {
    let [x, y] = [0, 1].map(|_| any(draw, length));
    let spoilt = |good: &[u8]| {
        let mut bytes = good.to_vec();
        put(&mut bytes, place, digit);
        bytes
    };
    hold_each(tally, &spoilt(&x), &y);
    hold_each(tally, &x, &spoilt(&y));
}

/// A part is ten thousand draws. One of sixteen is spoilt.
pub fn drawn(form: Form) -> Section {
    Section::of_calls(
        "packed, drawn",
        form.choose(2_000, 10),
        move |part, tally| {
            let mut draw = form.draw(18, part);
            for _ in 0..10_000 {
                let operation = draw.pick(&Operation::ALL);
                let length = 1 + draw.below(LONGEST as u32) as usize;
                let mut strings = operands(&mut draw, operation, length);
                if draw.below(16) == 0 {
                    let spoilt = draw.below(2) as usize;
                    spoil(&mut draw, &mut strings[spoilt]);
                }
                let [x, y] = &strings;
                let call = Call::new(operation, x, y, draw.below(2) == 0);
                hold(tally, call.in_room(length + draw.below(3) as usize));
            }
        },
    )
}

/// The most bytes of a number that is handed over in pieces.
const LONG: u32 = 600;

/// A part is a number longer than one call may have, handed over piece by piece.
pub fn pieces(form: Form) -> Section {
    let parts = form.choose(200_000, 2_000);
    Section::of_calls(
        "packed, long numbers in pieces",
        parts,
        move |part, tally| {
            let mut draw = form.draw(19, part);
            let operation = draw.pick(&Operation::ALL);
            let length = LONGEST + 1 + draw.below(LONG - LONGEST as u32) as usize;
            let [x, y] = &operands(&mut draw, operation, length);
            let whole = Call::new(operation, x, y, draw.below(2) == 0);
            if in_pieces(tally, &mut draw, whole) != reference::sum(whole) {
                tally.fail(|| format!("{whole}, in pieces: the sums differ"));
            }
        },
    )
}

/// The results of many calls, one behind another. Each is handed the carry of the one before it.
fn in_pieces(tally: &mut Tally, draw: &mut Draw, whole: Call) -> Sum {
    let (mut bytes, mut carry) = (Vec::new(), whole.carry);
    while bytes.len() < whole.x.len() {
        let from = bytes.len();
        let longest = from + 1 + draw.below(LONGEST as u32) as usize;
        let until = longest.min(whole.x.len());
        let (x, y) = (&whole.x[from..until], &whole.y[from..until]);
        let piece = Call::new(whole.operation, x, y, carry);
        let mut loan = Loan::to(piece);
        (tally.packed)(piece, &mut loan);
        tally.compared += 1;
        bytes.extend_from_slice(loan.out.bytes());
        carry = loan.carry.bytes() == [1];
    }
    Sum { bytes, carry }
}
