//! What would trap, told by a wrong rule.

use comparison::refused_flags::Divide;
use comparison::trap::call::{Call, REP, WORD};
use comparison::trap::loan::{ours, Loan, Side};
use comparison::trap::reference::{faults, quotient};

const BYTES: &str = "trap, all pairs of 8 bits";
const WORDS: &str = "trap, 16 bits, drawn";
const BORDERS: &str = "trap, 16 bits, at the borders";
const LIMITS: &str = "trap, modes and limits";
const MARTYPC: &str = "trap, beside MartyPC's own divides";
const BEFORE: &str = "trap, whatever stood there before";

pub const SECTIONS: [&str; 6] = [BYTES, WORDS, BORDERS, LIMITS, MARTYPC, BEFORE];

/// Those of which every call is admitted, and held to the full divide.
pub const ADMITTED: [&str; 3] = [BYTES, WORDS, BORDERS];

/// Those that have operands of both widths at and about a border.
const ABOUT: &[&str] = &[BYTES, WORDS, BORDERS, LIMITS, MARTYPC];

/// Each wrong rule by its name, and the sections that have to find it.
pub const RULES: [(&str, Side, &[&str]); 32] = [
    ("always", |call, loan| by(call, loan, |_| true), &SECTIONS),
    ("never", |call, loan| by(call, loan, |_| false), &SECTIONS),
    (
        "the other way round",
        |call, loan| but_admitted(call, loan, |trap| *trap ^= 1),
        &SECTIONS,
    ),
    (
        "2^N for signed too",
        |call, loan| by(call, loan, |call| at_least(call, call.bits())),
        ABOUT,
    ),
    (
        "2^(N-1) for unsigned too",
        |call, loan| by(call, loan, |call| at_least(call, call.bits() - 1)),
        ABOUT,
    ),
    (
        "above for at least",
        |call, loan| by(call, loan, above_for_at_least),
        ABOUT,
    ),
    (
        "from one below",
        |call, loan| by(call, loan, from_one_below),
        &[BYTES, WORDS, BORDERS, MARTYPC],
    ),
    (
        "zero divisor let through",
        |call, loan| by(call, loan, zero_divisor_let_through),
        &SECTIONS,
    ),
    (
        "0 by 0 let through",
        |call, loan| by(call, loan, zero_by_zero_let_through),
        &[BYTES, BORDERS, LIMITS],
    ),
    (
        "the lowest dividend as 0",
        |call, loan| by(call, loan, lowest_dividend_as_zero),
        &[BYTES, BORDERS, LIMITS],
    ),
    (
        "the lowest divisor as 0",
        |call, loan| by(call, loan, lowest_divisor_as_zero),
        ABOUT,
    ),
    (
        "the lowest quotient let through",
        |call, loan| by(call, loan, lowest_quotient_let_through),
        &[BYTES, WORDS, BORDERS, MARTYPC],
    ),
    (
        "signed operands as they stand",
        |call, loan| by(call, loan, |call| as_they_stand(call, [true, true])),
        ABOUT,
    ),
    (
        "signed dividend as it stands",
        |call, loan| by(call, loan, |call| as_they_stand(call, [true, false])),
        ABOUT,
    ),
    (
        "signed divisor as it stands",
        |call, loan| by(call, loan, |call| as_they_stand(call, [false, true])),
        ABOUT,
    ),
    (
        "with REP the lowest quotient let through",
        |call, loan| by(call, loan, rep_lets_the_lowest_through),
        &[BYTES, WORDS, BORDERS, MARTYPC],
    ),
    (
        "REP for signed",
        |call, loan| {
            ours(
                Call {
                    mode: call.mode | call.mode >> 1 & 2,
                    ..call
                },
                loan,
            )
        },
        &SECTIONS,
    ),
    ("REP refused", rep_refused, &SECTIONS),
    (
        "4 with trap 0",
        |call, loan| open_after(call, loan, 4),
        &[LIMITS, BEFORE],
    ),
    (
        "5 with trap 0",
        |call, loan| open_after(call, loan, 5),
        &[LIMITS, BEFORE],
    ),
    ("5 before 4", five_before_four, &[LIMITS, BEFORE]),
    (
        "trap unwritten after a refusal",
        unwritten_after_a_refusal,
        &[LIMITS, BEFORE],
    ),
    (
        "a mode above 07 let through",
        |call, loan| {
            ours(
                Call {
                    mode: call.mode & 7,
                    ..call
                },
                loan,
            )
        },
        &[LIMITS, BEFORE],
    ),
    (
        "a wide dividend of 8 bits cut",
        |call, loan| ours(dividend_cut(call), loan),
        &[LIMITS, BEFORE],
    ),
    (
        "a wide divisor of 8 bits cut",
        |call, loan| ours(divisor_cut(call), loan),
        &[LIMITS, BEFORE],
    ),
    (
        "limits of 8 bits at 16",
        limits_of_bytes_for_words,
        &[WORDS, BORDERS, LIMITS, MARTYPC, BEFORE],
    ),
    ("limits one lower", limits_one_lower, &[BYTES, LIMITS]),
    ("trap as 255", trap_as_255, &SECTIONS),
    ("added to what stood there", or_with_before, &SECTIONS),
    ("cut by what stood there", and_with_before, &[BEFORE]),
    ("trap written as a word", trap_as_a_word, &SECTIONS),
    ("the byte before cleared", byte_before_cleared, &SECTIONS),
];

/// Answers as the port does, and makes something wrong of what it tells of an admitted call.
fn but_admitted(call: Call, loan: &mut Loan, wrong: impl FnOnce(&mut u8)) -> u8 {
    let status = ours(call, loan);
    if status == 0 {
        wrong(loan.trap());
    }
    status
}

/// The port, but that admitted calls are told by a wrong rule.
fn by(call: Call, loan: &mut Loan, rule: fn(Call) -> bool) -> u8 {
    but_admitted(call, loan, |trap| *trap = rule(call).into())
}

/// The dividend's magnitude, and the divisor's times a power of 2.
fn border(call: Call, power: u32) -> [u64; 2] {
    let divide = Divide::from(call.divide(0));
    [divide.dividend, divide.divisor << power]
}

fn at_least(call: Call, power: u32) -> bool {
    let [dividend, border] = border(call, power);
    dividend >= border
}

/// The power of 2 of the right rule.
fn power(call: Call) -> u32 {
    call.bits() - u32::from(call.is_signed())
}

fn right(call: Call) -> bool {
    at_least(call, power(call))
}

fn above_for_at_least(call: Call) -> bool {
    let [dividend, border] = border(call, power(call));
    dividend > border
}

fn from_one_below(call: Call) -> bool {
    let [dividend, border] = border(call, power(call));
    dividend + 1 >= border
}

fn zero_divisor_let_through(call: Call) -> bool {
    call.divisor != 0 && right(call)
}

fn zero_by_zero_let_through(call: Call) -> bool {
    (call.dividend, call.divisor) != (0, 0) && right(call)
}

fn lowest_dividend_as_zero(call: Call) -> bool {
    let is_lowest = call.dividend == 1 << (2 * call.bits() - 1);
    match call.is_signed() && is_lowest {
        true => call.divisor == 0,
        false => right(call),
    }
}

fn lowest_divisor_as_zero(call: Call) -> bool {
    let is_lowest = call.divisor == 1 << (call.bits() - 1);
    call.is_signed() && is_lowest || right(call)
}

/// -128 fits a byte, and a host lets it through.
fn lowest_quotient_let_through(call: Call) -> bool {
    quotient(call) != Some(-1 << (call.bits() - 1)) && right(call)
}

/// 128, of which REP would make -128.
fn rep_lets_the_lowest_through(call: Call) -> bool {
    let becomes_lowest = quotient(call) == Some(1 << (call.bits() - 1));
    !(call.mode & REP != 0 && becomes_lowest) && right(call)
}

/// Signed, without the magnitude of the dividend or of the divisor.
fn as_they_stand(call: Call, [dividend, divisor]: [bool; 2]) -> bool {
    let [mut left, mut right] = border(call, power(call));
    if dividend {
        left = call.dividend.into();
    }
    if divisor {
        right = u64::from(call.divisor) << power(call);
    }
    left >= right
}

/// Refuses an admitted call with this status.
fn refuse(call: Call, loan: &mut Loan, applies: bool, status: u8) -> u8 {
    match ours(call, loan) {
        0 if applies => {
            *loan.trap() = 1;
            status
        }
        status => status,
    }
}

fn rep_refused(call: Call, loan: &mut Loan) -> u8 {
    refuse(call, loan, call.mode & REP != 0, 4)
}

fn open_after(call: Call, loan: &mut Loan, which: u8) -> u8 {
    let status = ours(call, loan);
    if status == which {
        *loan.trap() = 0;
    }
    status
}

fn five_before_four(call: Call, loan: &mut Loan) -> u8 {
    match (ours(call, loan), faults(call)) {
        (_, [true, true]) => 5,
        (status, _) => status,
    }
}

fn unwritten_after_a_refusal(call: Call, loan: &mut Loan) -> u8 {
    let before = *loan.trap();
    let status = ours(call, loan);
    if status != 0 {
        *loan.trap() = before;
    }
    status
}

fn dividend_cut(call: Call) -> Call {
    match call.mode & WORD {
        0 => Call {
            dividend: call.dividend & 0xFFFF,
            ..call
        },
        _ => call,
    }
}

fn divisor_cut(call: Call) -> Call {
    match call.mode & WORD {
        0 => Call {
            divisor: call.divisor & 0xFF,
            ..call
        },
        _ => call,
    }
}

fn limits_of_bytes_for_words(call: Call, loan: &mut Loan) -> u8 {
    let mode = call.mode & !WORD;
    let [_, is_too_large] = faults(Call { mode, ..call });
    refuse(call, loan, is_too_large, 5)
}

fn limits_one_lower(call: Call, loan: &mut Loan) -> u8 {
    let is_at_limit = call.dividend == 0xFFFF || call.divisor == 0xFF;
    refuse(call, loan, call.bits() == 8 && is_at_limit, 5)
}

fn trap_as_255(call: Call, loan: &mut Loan) -> u8 {
    but_admitted(call, loan, |trap| *trap = trap.wrapping_neg())
}

fn or_with_before(call: Call, loan: &mut Loan) -> u8 {
    let before = *loan.trap();
    but_admitted(call, loan, |trap| *trap |= before)
}

fn and_with_before(call: Call, loan: &mut Loan) -> u8 {
    let before = *loan.trap();
    but_admitted(call, loan, |trap| *trap &= before)
}

fn trap_as_a_word(call: Call, loan: &mut Loan) -> u8 {
    let status = ours(call, loan);
    loan.whole[Loan::PLACE + 1] = 0;
    status
}

fn byte_before_cleared(call: Call, loan: &mut Loan) -> u8 {
    let status = ours(call, loan);
    loan.whole[Loan::PLACE - 1] = 0;
    status
}
