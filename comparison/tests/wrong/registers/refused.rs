//! What is refused, in which order, and what a refusal leaves, by a wrong rule.

use super::*;
use comparison::registers::call::MULTIPLY;
use comparison::registers::reference::{faults, y_most};
use comparison::trap::call::{DIVIDE, REP};
use hatchyarn::raw;
use oracle::request::ALL_FLAGS;

/// The statuses after which the record is as it was, but for that of a full total.
const NOT_ADMITTED: &[u8] = &[3, 4, 5];

/// Those in which a total is full now and then.
const OF_FULL: &[&str] = &[TOTALS, FAULTS, END];

/// Each wrong rule by its name, and the sections that have to find it.
pub const RULES: [Rule; 36] = [
    (
        "total wrapped",
        |call, loan| unlimited(call, loan, |_| true, u32::wrapping_add),
        OF_FULL,
    ),
    (
        "total held at its most",
        |call, loan| unlimited(call, loan, |_| true, u32::saturating_add),
        OF_FULL,
    ),
    (
        "6, 8 and 9 before 10",
        |call, loan| but_full(call, loan, refused_divide_first),
        OF_FULL,
    ),
    (
        "a refused divide never 10",
        |call, loan| unlimited(call, loan, |free| free.status != 0, u32::saturating_add),
        OF_FULL,
    ),
    (
        "only a refused divide 10",
        |call, loan| unlimited(call, loan, |free| free.status == 0, u32::saturating_add),
        OF_FULL,
    ),
    ("10 one too early", one_too_early, OF_FULL),
    (
        "10 one too late",
        |call, loan| {
            let total = loan.total.lent;
            let is_next = |free: &Outcome| u64::from(total) + u64::from(free.steps) == 1 << 32;
            unlimited(call, loan, is_next, u32::wrapping_add)
        },
        OF_FULL,
    ),
    ("10 without a step", ten_without_a_step, &[TOTALS, END]),
    (
        "10 within 255 of the most",
        |call, loan| {
            but_after(call, loan, &[0, 6, 8, 9], |before, given| {
                if before.total > u32::MAX - 0xFF {
                    *given = Outcome::refused(10, before);
                }
            })
        },
        OF_FULL,
    ),
    (
        "10 stores the flags",
        |call, loan| {
            but_full(call, loan, |given, free| {
                given.record.flags = free.record.flags
            })
        },
        OF_FULL,
    ),
    (
        "10 stores AX",
        |call, loan| but_full(call, loan, |given, free| given.record.ax = free.record.ax),
        OF_FULL,
    ),
    (
        "10 stores DX",
        |call, loan| but_full(call, loan, |given, free| given.record.dx = free.record.dx),
        OF_FULL,
    ),
    (
        "10 tells the steps",
        |call, loan| but_full(call, loan, |given, free| given.steps = free.steps),
        OF_FULL,
    ),
    (
        "10 fills the total",
        |call, loan| but_full(call, loan, |given, _| given.record.total = u32::MAX),
        OF_FULL,
    ),
    (
        "10 clears the total",
        |call, loan| but_full(call, loan, |given, _| given.record.total = 0),
        OF_FULL,
    ),
    (
        "10 as 7",
        |call, loan| but_full(call, loan, |given, _| given.status = 7),
        OF_FULL,
    ),
    (
        "10 before 3",
        |call, loan| ten_before(call, loan, 3),
        &[OPS, FAULTS],
    ),
    (
        "10 before 4",
        |call, loan| ten_before(call, loan, 4),
        &[OPS, FAULTS],
    ),
    (
        "10 before 5",
        |call, loan| ten_before(call, loan, 5),
        &[FAULTS, END],
    ),
    (
        "3 after 4",
        |call, loan| in_order(call, loan, [1, 0, 2]),
        &[OPS, FAULTS, SEQUENCES],
    ),
    (
        "4 after 5",
        |call, loan| in_order(call, loan, [0, 2, 1]),
        &[OPS, FAULTS, SEQUENCES],
    ),
    (
        "3 after 5",
        |call, loan| in_order(call, loan, [2, 0, 1]),
        &[OPS, FAULTS, SEQUENCES],
    ),
    ("6, 8 and 9 before 5", divisor_first, &[LIMITS, FAULTS]),
    (
        "ops of the ALU let through",
        alu_let_through,
        &[OPS, FAULTS, SEQUENCES],
    ),
    ("ops of the ALU with 4 and 5", alu_judged, &[OPS, FAULTS]),
    (
        "a mode above 07 let through",
        |call, loan| {
            let mode = match call.op {
                MULTIPLY | DIVIDE => call.mode & 7,
                _ => call.mode,
            };
            ours(Call { mode, ..call }, loan)
        },
        &[OPS, FAULTS, SEQUENCES],
    ),
    (
        "modes of adjusts let through",
        |call, loan| {
            let mode = if call.op >= 0x18 { 0 } else { call.mode };
            ours(Call { mode, ..call }, loan)
        },
        &[OPS, FAULTS, SEQUENCES],
    ),
    (
        "REP refused",
        |call, loan| refuse(call, loan, |call, _| call.mode & REP != 0, 4),
        &[DIVIDES, MULTIPLIES, EDGES, WORDS, SEQUENCES],
    ),
    (
        "flags that are none let through",
        |call, loan| {
            let before = loan.record();
            let flags = before.flags & ALL_FLAGS;
            restored(call, loan, Record { flags, ..before })
        },
        &[LIMITS, FAULTS, SEQUENCES],
    ),
    (
        "flag 0002 let through",
        |call, loan| {
            let before = loan.record();
            let flags = before.flags & !0x0002;
            restored(call, loan, Record { flags, ..before })
        },
        &[LIMITS],
    ),
    (
        "a wide Y cut",
        |call, loan| {
            let y = match (call.op, call.is_word()) {
                (MULTIPLY | DIVIDE, true) => call.y,
                _ => call.y & y_most(call),
            };
            ours(Call { y, ..call }, loan)
        },
        &[LIMITS, FAULTS, SEQUENCES],
    ),
    (
        "limits of Y one lower",
        |call, loan| refuse(call, loan, |call, _| call.y == 0xFF && !call.is_word(), 5),
        &[DIVIDES, MULTIPLIES, AAD, EDGES, LIMITS],
    ),
    (
        "X of 8 bits judged",
        |call, loan| {
            let is_wide = |call: Call, before: Record| {
                call.op == MULTIPLY && !call.is_word() && before.ax > 0xFF
            };
            refuse(call, loan, is_wide, 5)
        },
        &[MULTIPLIES, EDGES, SEQUENCES],
    ),
    (
        "steps unwritten after 3, 4 and 5",
        |call, loan| unwritten_after(call, loan, NOT_ADMITTED),
        &[LIMITS, OPS, FAULTS, SEQUENCES, END],
    ),
    (
        "steps unwritten after 10",
        |call, loan| unwritten_after(call, loan, &[10]),
        OF_FULL,
    ),
    (
        "refusals count a step",
        |call, loan| {
            but_after(call, loan, NOT_ADMITTED, |_, given| {
                given.record.total = given.record.total.wrapping_add(1)
            })
        },
        &[LIMITS, OPS, FAULTS, SEQUENCES, END],
    ),
];

/// The port, but that calls after which the total would pass its most are done all the same, if they are of this
/// kind, and the total is added up so.
fn unlimited(
    call: Call,
    loan: &mut Loan,
    which: impl FnOnce(&Outcome) -> bool,
    add: fn(u32, u32) -> u32,
) -> u8 {
    but_after(call, loan, &[10], |before, given| {
        let mut free = of_empty(call, before);
        if which(&free) {
            free.record.total = add(before.total, free.steps.into());
            *given = free;
        }
    })
}

/// The port, but that something wrong is made of 10. It is told what would have come of the call.
fn but_full(call: Call, loan: &mut Loan, wrong: fn(&mut Outcome, Outcome)) -> u8 {
    but_after(call, loan, &[10], |before, given| {
        wrong(given, of_empty(call, before))
    })
}

fn refused_divide_first(given: &mut Outcome, free: Outcome) {
    if free.status != 0 {
        given.status = free.status;
    }
}

/// Refuses an admitted call with this status.
fn refuse(call: Call, loan: &mut Loan, applies: fn(Call, Record) -> bool, status: u8) -> u8 {
    but_after(call, loan, &[0, 6, 8, 9, 10], |before, given| {
        if applies(call, before) {
            *given = Outcome::refused(status, before);
        }
    })
}

fn one_too_early(call: Call, loan: &mut Loan) -> u8 {
    but_after(call, loan, &[0, 6, 8, 9], |before, given| {
        if given.steps > 0 && given.record.total == u32::MAX {
            *given = Outcome::refused(10, before);
        }
    })
}

fn ten_without_a_step(call: Call, loan: &mut Loan) -> u8 {
    but_after(call, loan, &[0], |before, given| {
        if given.steps == 0 && before.total == u32::MAX {
            *given = Outcome::refused(10, before);
        }
    })
}

fn ten_before(call: Call, loan: &mut Loan, status: u8) -> u8 {
    but_after(call, loan, &[status], |before, given| {
        if before.total > u32::MAX - 6 {
            given.status = 10;
        }
    })
}

/// The refusals 3, 4 and 5 looked for in another order.
fn in_order(call: Call, loan: &mut Loan, order: [usize; 3]) -> u8 {
    but_after(call, loan, NOT_ADMITTED, |before, given| {
        let faults = faults(call, before);
        let first = order.into_iter().find(|&place| faults[place]);
        given.status = 3 + first.expect("it is refused") as u8;
    })
}

/// A zero divisor is seen before the flags are looked at.
fn divisor_first(call: Call, loan: &mut Loan) -> u8 {
    but_after(call, loan, &[5], |_, given| {
        if call.op == DIVIDE && call.y == 0 {
            given.status = 6;
        }
    })
}

/// The operation by value, and its result in AX.
fn alu_let_through(call: Call, loan: &mut Loan) -> u8 {
    but_after(call, loan, &[3], |before, given| {
        let answer = raw::ask(call.op, call.mode, before.flags, before.ax.into(), call.y);
        if answer.status == 0 {
            given.status = 0;
            given.record.ax = answer.r;
            given.record.flags = answer.flags;
        }
    })
}

/// What the answer by value is refused for.
fn alu_judged(call: Call, loan: &mut Loan) -> u8 {
    but_after(call, loan, &[3], |before, given| {
        let answer = raw::ask(call.op, call.mode, before.flags, before.ax.into(), call.y);
        if answer.status != 0 {
            given.status = answer.status;
        }
    })
}

/// The port over another record, of which the flags are as they were if it is not admitted.
fn restored(call: Call, loan: &mut Loan, record: Record) -> u8 {
    let before = loan.record();
    let status = read_as(call, loan, record);
    if NOT_ADMITTED.contains(&status) || status == 10 {
        loan.put(before, 0);
    }
    status
}

fn unwritten_after(call: Call, loan: &mut Loan, statuses: &[u8]) -> u8 {
    let steps = loan.steps.lent;
    but_after(call, loan, statuses, |_, given| given.steps = steps)
}
