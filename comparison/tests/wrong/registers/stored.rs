//! What is read from the record, what is stored in it, and what is counted, by a wrong rule.

use super::*;
use comparison::registers::call::{AAD as AAD_OP, MULTIPLY};
use comparison::trap::call::{DIVIDE, REP, SIGNED, WORD};

/// The statuses of a refused divide.
const REFUSED: &[u8] = &[6, 8, 9];

/// Those with refused divides among their calls.
const OF_REFUSED: &[&str] = &[
    DIVIDES, EDGES, WORDS, TOTALS, LIMITS, FAULTS, SEQUENCES, END,
];

/// All but that of ops and modes, of which few calls are admitted.
const OF_DONE: &[&str] = &[
    DIVIDES, MULTIPLIES, ADJUSTS, AAD, EDGES, WORDS, TOTALS, LIMITS, FAULTS, SEQUENCES, END,
];

/// Each wrong rule by its name, and the sections that have to find it.
pub const RULES: [Rule; 41] = [
    (
        "a refused divide adds nothing",
        |call, loan| {
            but_after(call, loan, REFUSED, |before, given| {
                given.record.total = before.total
            })
        },
        OF_REFUSED,
    ),
    (
        "a refused divide tells no steps",
        |call, loan| but_after(call, loan, REFUSED, |_, given| given.steps = 0),
        OF_REFUSED,
    ),
    (
        "a refused divide leaves the flags",
        |call, loan| {
            but_after(call, loan, REFUSED, |before, given| {
                given.record.flags = before.flags
            })
        },
        OF_REFUSED,
    ),
    (
        "a refused divide clears AX",
        |call, loan| but_after(call, loan, REFUSED, |_, given| given.record.ax = 0),
        OF_REFUSED,
    ),
    (
        "a refused divide clears DX",
        |call, loan| but_after(call, loan, REFUSED, |_, given| given.record.dx = 0),
        OF_REFUSED,
    ),
    (
        "a refused divide leaves the record wholly",
        |call, loan| but_after(call, loan, REFUSED, |before, given| given.record = before),
        &[DIVIDES, EDGES, SEQUENCES],
    ),
    (
        "all refused for a zero divisor",
        |call, loan| but_after(call, loan, REFUSED, |_, given| given.status = 6),
        &[DIVIDES, EDGES, WORDS, TOTALS, SEQUENCES],
    ),
    (
        "AL and AH exchanged",
        |call, loan| {
            of(call, loan, (DIVIDE, 0), |_, record| {
                record.ax = record.ax.swap_bytes()
            })
        },
        &[DIVIDES, EDGES, SEQUENCES],
    ),
    (
        "remainder of 8 bits dropped",
        |call, loan| of(call, loan, (DIVIDE, 0), |_, record| record.ax &= 0xFF),
        &[DIVIDES, EDGES, SEQUENCES],
    ),
    (
        "remainder of 8 bits in DX",
        |call, loan| {
            of(call, loan, (DIVIDE, 0), |_, record| {
                record.dx = record.ax >> 8
            })
        },
        &[DIVIDES, EDGES, SEQUENCES],
    ),
    (
        "quotient and remainder exchanged",
        |call, loan| of(call, loan, (DIVIDE, WORD), exchanged),
        &[EDGES, WORDS, SEQUENCES],
    ),
    (
        "remainder of 16 bits dropped",
        |call, loan| {
            of(call, loan, (DIVIDE, WORD), |before, record| {
                record.dx = before.dx
            })
        },
        &[EDGES, WORDS, SEQUENCES],
    ),
    (
        "halves of a product exchanged",
        |call, loan| of(call, loan, (MULTIPLY, WORD), exchanged),
        &[EDGES, WORDS, SEQUENCES],
    ),
    (
        "upper half of a product dropped",
        |call, loan| {
            of(call, loan, (MULTIPLY, WORD), |before, record| {
                record.dx = before.dx
            })
        },
        &[EDGES, WORDS, SEQUENCES],
    ),
    (
        "product of 8 bits without AH",
        |call, loan| {
            of(call, loan, (MULTIPLY, 0), |before, record| {
                record.ax = before.ax & 0xFF00 | record.ax & 0xFF
            })
        },
        &[MULTIPLIES, EDGES, SEQUENCES],
    ),
    (
        "product of 8 bits clears DX",
        |call, loan| of(call, loan, (MULTIPLY, 0), |_, record| record.dx = 0),
        &[MULTIPLIES, EDGES, SEQUENCES],
    ),
    (
        "adjusts clear DX",
        |call, loan| done(call, loan, is_adjust, |_, given| given.record.dx = 0),
        &[ADJUSTS, AAD, EDGES, SEQUENCES],
    ),
    (
        "adjusts keep AH",
        |call, loan| {
            done(call, loan, is_adjust, |before, given| {
                given.record.ax = before.ax & 0xFF00 | given.record.ax & 0xFF
            })
        },
        &[ADJUSTS, AAD, EDGES, SEQUENCES],
    ),
    (
        "flags left as they were",
        |call, loan| {
            done(
                call,
                loan,
                |_| true,
                |before, given| given.record.flags = before.flags,
            )
        },
        OF_DONE,
    ),
    (
        "AAD forgets the total",
        |call, loan| done(call, loan, |call| call.op == AAD_OP, forgotten),
        &[AAD, EDGES, TOTALS, SEQUENCES, END],
    ),
    (
        "AAA and AAS forget the total",
        |call, loan| done(call, loan, |call| matches!(call.op, 0x18 | 0x19), forgotten),
        &[ADJUSTS, EDGES, TOTALS, SEQUENCES, END],
    ),
    (
        "multiplies forget the total",
        |call, loan| done(call, loan, |call| call.op == MULTIPLY, forgotten),
        &[MULTIPLIES, EDGES, WORDS, TOTALS, SEQUENCES, END],
    ),
    (
        "divides forget the total",
        |call, loan| done(call, loan, |call| call.op == DIVIDE, forgotten),
        &[DIVIDES, EDGES, WORDS, TOTALS, SEQUENCES, END],
    ),
    (
        "DAA and DAS count a step",
        |call, loan| {
            done(call, loan, is_decimal, |_, given| {
                given.record.total = given.record.total.wrapping_add(1);
                given.steps += 1;
            })
        },
        &[ADJUSTS, EDGES, TOTALS, SEQUENCES, END],
    ),
    (
        "total as the steps alone",
        |call, loan| {
            done(
                call,
                loan,
                |_| true,
                |_, given| given.record.total = given.steps.into(),
            )
        },
        OF_DONE,
    ),
    (
        "total one more",
        |call, loan| {
            done(
                call,
                loan,
                |_| true,
                |_, given| given.record.total = given.record.total.wrapping_add(1),
            )
        },
        OF_DONE,
    ),
    (
        "total of sixteen bits",
        |call, loan| {
            done(
                call,
                loan,
                |_| true,
                |_, given| given.record.total %= 0x1_0000,
            )
        },
        &[
            DIVIDES, MULTIPLIES, ADJUSTS, AAD, EDGES, WORDS, TOTALS, SEQUENCES, END,
        ],
    ),
    (
        "total without its carry at bit 16",
        |call, loan| done(call, loan, |_| true, no_carry_at_16),
        &[DIVIDES, WORDS, TOTALS, SEQUENCES],
    ),
    (
        "steps added to what stood there",
        |call, loan| mixed(call, loan, |before, steps| before.wrapping_add(steps)),
        &SECTIONS,
    ),
    (
        "steps cut by what stood there",
        |call, loan| mixed(call, loan, |before, steps| before & steps),
        &[DIVIDES, MULTIPLIES, AAD, EDGES, WORDS, SEQUENCES],
    ),
    (
        "steps written as a byte",
        |call, loan| mixed(call, loan, |before, steps| before & 0xFF00 | steps & 0xFF),
        &SECTIONS,
    ),
    (
        "DX not read",
        |call, loan| {
            let before = loan.record();
            read_as(call, loan, by_word(call, before, |record| record.dx = 0))
        },
        &[EDGES, WORDS, SEQUENCES],
    ),
    (
        "DX read below AX",
        |call, loan| {
            let before = loan.record();
            read_as(call, loan, by_word(call, before, turned))
        },
        &[EDGES, WORDS, SEQUENCES],
    ),
    (
        "DX read with its sign",
        |call, loan| {
            let before = loan.record();
            let with_sign = |record: &mut Record| {
                if record.ax & 0x8000 != 0 {
                    record.dx = 0xFFFF;
                }
            };
            read_as(call, loan, by_word(call, before, with_sign))
        },
        &[EDGES, WORDS, SEQUENCES],
    ),
    (
        "AH read as AL",
        |call, loan| {
            let before = loan.record();
            let is_byte = call.op == MULTIPLY && !call.is_word();
            let ax = if is_byte { before.ax >> 8 } else { before.ax };
            read_as(call, loan, Record { ax, ..before })
        },
        &[MULTIPLIES, EDGES, SEQUENCES],
    ),
    (
        "width not handed on",
        |call, loan| ours(without(call, WORD), loan),
        &[EDGES, WORDS, SEQUENCES],
    ),
    (
        "signs not handed on",
        |call, loan| ours(without(call, SIGNED), loan),
        &[DIVIDES, MULTIPLIES, EDGES, WORDS, SEQUENCES],
    ),
    (
        "REP not handed on",
        |call, loan| ours(without(call, REP), loan),
        &[DIVIDES, MULTIPLIES, EDGES, WORDS, SEQUENCES],
    ),
    (
        "AAD's byte always ten",
        |call, loan| {
            let is_aad = call.op == AAD_OP && call.y <= 0xFF;
            let y = if is_aad { 10 } else { call.y };
            ours(Call { y, ..call }, loan)
        },
        &[AAD, EDGES, SEQUENCES],
    ),
    (
        "flags not handed on",
        |call, loan| {
            let before = loan.record();
            read_as(
                call,
                loan,
                Record {
                    flags: before.flags & !0x0011,
                    ..before
                },
            )
        },
        &[ADJUSTS, EDGES, SEQUENCES],
    ),
    (
        "DAA for DAS",
        |call, loan| {
            let op = if call.op == 0x1C { 0x1B } else { call.op };
            ours(Call { op, ..call }, loan)
        },
        &[ADJUSTS, EDGES, SEQUENCES],
    ),
];

/// The port, but that something wrong is made of some calls that are done.
fn done(
    call: Call,
    loan: &mut Loan,
    which: impl Fn(Call) -> bool,
    wrong: impl FnOnce(Record, &mut Outcome),
) -> u8 {
    but_after(call, loan, &[0], |before, given| {
        if which(call) {
            wrong(before, given);
        }
    })
}

/// The same, of calls of one op and width, and of the record alone.
fn of(
    call: Call,
    loan: &mut Loan,
    (op, width): (u8, u8),
    wrong: impl FnOnce(Record, &mut Record),
) -> u8 {
    let which = |call: Call| (call.op, call.mode & WORD) == (op, width);
    done(call, loan, which, |before, given| {
        wrong(before, &mut given.record)
    })
}

fn is_adjust(call: Call) -> bool {
    matches!(call.op, 0x18..=0x1C)
}

fn is_decimal(call: Call) -> bool {
    matches!(call.op, 0x1B | 0x1C)
}

fn exchanged(_: Record, record: &mut Record) {
    turned(record);
}

fn turned(record: &mut Record) {
    (record.ax, record.dx) = (record.dx, record.ax);
}

fn forgotten(before: Record, given: &mut Outcome) {
    given.record.total = before.total;
}

fn no_carry_at_16(before: Record, given: &mut Outcome) {
    given.record.total = before.total & 0xFFFF_0000 | given.record.total & 0xFFFF;
}

/// The steps, made wrong by what stood in their place.
fn mixed(call: Call, loan: &mut Loan, wrong: fn(u16, u16) -> u16) -> u8 {
    let before = loan.steps.lent;
    let status = ours(call, loan);
    loan.steps.lent = wrong(before, loan.steps.lent);
    status
}

/// The record, changed for a divide of sixteen bits.
fn by_word(call: Call, mut record: Record, change: impl FnOnce(&mut Record)) -> Record {
    if call.op == DIVIDE && call.is_word() {
        change(&mut record);
    }
    record
}

/// A multiply or divide without one bit of its mode.
fn without(call: Call, bit: u8) -> Call {
    match call.mode <= 7 && !is_adjust(call) {
        true => Call {
            mode: call.mode & !bit,
            ..call
        },
        false => call,
    }
}
