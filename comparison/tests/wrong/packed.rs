//! Packed digits that are answered by a wrong rule.

use comparison::packed::call::Call;
use comparison::packed::digits::{packed, unpacked};
use comparison::packed::loan::{ours, Loan, Side};
use comparison::packed::reference::{faults, sum};

const BYTES: &str = "packed, all pairs of bytes, digits or not";
const LENGTHS: &str = "packed, lengths and rooms";
const RUNS: &str = "packed, runs of 9s and 0s";
const OVER_NINE: &str = "packed, a digit over 9 in every place";
const DRAWN: &str = "packed, drawn";
const PIECES: &str = "packed, long numbers in pieces";

pub const SECTIONS: [&str; 6] = [BYTES, LENGTHS, RUNS, OVER_NINE, DRAWN, PIECES];

/// Each wrong rule by its name, and the sections that have to find it.
pub const RULES: [(&str, Side, &[&str]); 13] = [
    (
        "carry in left out",
        carry_in_left_out,
        &[BYTES, RUNS, DRAWN, PIECES],
    ),
    (
        "carry not handed on",
        carry_not_handed_on,
        &[RUNS, DRAWN, PIECES],
    ),
    (
        "carry out of the byte below",
        carry_of_the_byte_below,
        &[RUNS, DRAWN, PIECES],
    ),
    ("carry as 255", carry_as_255, &[BYTES, RUNS, DRAWN, PIECES]),
    (
        "10 let through in Y",
        ten_let_through_in_y,
        &[BYTES, OVER_NINE],
    ),
    ("33 bytes let through", thirty_three_let_through, &[LENGTHS]),
    (
        "21 before 20",
        |call, loan| in_order(call, loan, [1, 0, 2, 3]),
        &[LENGTHS],
    ),
    (
        "22 before 21",
        |call, loan| in_order(call, loan, [0, 2, 1, 3]),
        &[LENGTHS],
    ),
    (
        "23 before 22",
        |call, loan| in_order(call, loan, [0, 1, 3, 2]),
        &[LENGTHS],
    ),
    (
        "a byte past the length",
        a_byte_past_the_length,
        &[LENGTHS, DRAWN],
    ),
    (
        "first byte of a refusal",
        first_byte_of_a_refusal,
        &[BYTES, LENGTHS, OVER_NINE],
    ),
    (
        "carry of a refusal",
        carry_of_a_refusal,
        &[BYTES, LENGTHS, OVER_NINE],
    ),
    ("result in X", result_in_x, &[BYTES, RUNS, DRAWN]),
];

fn carry_in_left_out(call: Call, loan: &mut Loan) -> u8 {
    let carry = false;
    ours(Call { carry, ..call }, loan)
}

/// Answers as the port does, and makes something wrong of what it admits.
fn but_admitted(call: Call, loan: &mut Loan, wrong: impl FnOnce(&mut Loan)) -> u8 {
    let status = ours(call, loan);
    if status == 0 {
        wrong(loan);
    }
    status
}

fn carry_not_handed_on(call: Call, loan: &mut Loan) -> u8 {
    but_admitted(call, loan, |loan| {
        for place in 1..call.x.len() {
            let [x, y] = [call.x, call.y].map(|bytes| &bytes[place..=place]);
            let alone = sum(Call::new(call.operation, x, y, false));
            loan.out.bytes()[place] = alone.bytes[0];
        }
    })
}

fn carry_of_the_byte_below(call: Call, loan: &mut Loan) -> u8 {
    but_admitted(call, loan, |loan| {
        let [x, y] = [call.x, call.y].map(|bytes| &bytes[..bytes.len() - 1]);
        let below = sum(Call::new(call.operation, x, y, call.carry));
        loan.carry.bytes()[0] = below.carry.into();
    })
}

fn carry_as_255(call: Call, loan: &mut Loan) -> u8 {
    but_admitted(call, loan, |loan| {
        let carry = &mut loan.carry.bytes()[0];
        *carry = carry.wrapping_neg();
    })
}

/// It counts as a 9.
fn ten_let_through_in_y(call: Call, loan: &mut Loan) -> u8 {
    let digits: Vec<u8> = unpacked(call.y)
        .into_iter()
        .map(|digit| if digit == 10 { 9 } else { digit })
        .collect();
    let y = &packed(&digits);
    let through = Call { y, ..call };
    let mut apart = Loan::to(through);
    let status = ours(through, &mut apart);
    (loan.out, loan.carry) = (apart.out, apart.carry);
    status
}

fn thirty_three_let_through(call: Call, loan: &mut Loan) -> u8 {
    if call.x.len() == 33 && faults(call) == [false, true, false, false] {
        let sum = sum(call);
        loan.out.bytes()[..33].copy_from_slice(&sum.bytes);
        loan.carry.bytes()[0] = sum.carry.into();
        return 0;
    }
    ours(call, loan)
}

/// The refusals in another order, by their places in the right one.
fn in_order(call: Call, loan: &mut Loan, order: [usize; 4]) -> u8 {
    let faults = faults(call);
    match order.into_iter().find(|&place| faults[place]) {
        Some(place) => 20 + place as u8,
        None => ours(call, loan),
    }
}

fn a_byte_past_the_length(call: Call, loan: &mut Loan) -> u8 {
    but_admitted(call, loan, |loan| {
        if let Some(past) = loan.out.bytes().get_mut(call.x.len()) {
            *past ^= 1;
        }
    })
}

fn first_byte_of_a_refusal(call: Call, loan: &mut Loan) -> u8 {
    let status = ours(call, loan);
    if status != 0 {
        if let Some(first) = loan.out.bytes().first_mut() {
            *first ^= 1;
        }
    }
    status
}

fn carry_of_a_refusal(call: Call, loan: &mut Loan) -> u8 {
    let status = ours(call, loan);
    if status != 0 {
        loan.carry.bytes()[0] = 0;
    }
    status
}

fn result_in_x(call: Call, loan: &mut Loan) -> u8 {
    but_admitted(call, loan, |loan| {
        let length = call.x.len();
        loan.x.bytes().copy_from_slice(&loan.out.bytes()[..length]);
    })
}
