//! The sections over a register record on what is refused, and on what only just is not.

use super::call::{Call, Record};
use super::held::hold;
use super::operands::{any_record, at_turns, drawn, operations, wild, wild_record, wild_y};
use super::reference::y_most;
use crate::form::Form;
use crate::judged::flag_words;
use crate::section::Section;

/// A part is an operation and a thousand draws of it, divides that are refused among them.
pub fn totals(form: Form) -> Section {
    let operations = operations();
    let parts = operations.len() as u64 * form.choose(200, 2);
    let name = "registers, totals about the largest";
    Section::of_calls(name, parts, move |part, tally| {
        let mut draw = form.draw(40, part);
        let operation = operations[part as usize % operations.len()];
        for _ in 0..1_000 {
            let (call, record) = drawn(&mut draw, operation);
            for total in at_turns(&mut draw, call, record) {
                hold(tally, &mut draw, call, Record { total, ..record });
            }
        }
    })
}

/// A part is an operation: Y about its limit and of single bits, with every word as flags.
pub fn limits(form: Form) -> Section {
    let operations = operations();
    let parts = operations.len() as u64;
    let name = "registers, limits of Y, words as flags";
    Section::of_calls(name, parts, move |part, tally| {
        let mut draw = form.draw(41, part);
        let (op, mode) = operations[part as usize].code();
        for flags in flag_words(form, &mut draw) {
            for y in about_limit(op, mode) {
                let record = any_record(&mut draw);
                hold(
                    tally,
                    &mut draw,
                    Call { op, mode, y },
                    Record { flags, ..record },
                );
            }
        }
    })
}

/// None, the limit and its neighbours, the largest, and each single bit.
pub fn about_limit(op: u8, mode: u8) -> Vec<u16> {
    let limit = y_most(Call { op, mode, y: 0 });
    let mut values = vec![
        0,
        limit.saturating_sub(1),
        limit,
        limit.saturating_add(1),
        u16::MAX,
    ];
    values.extend((0..16).map(|bit| 1 << bit));
    values.sort_unstable();
    values.dedup();
    values
}

/// A part is an op, with all modes.
pub fn ops_and_modes(form: Form) -> Section {
    let draws = form.choose(100, 3);
    let name = "registers, all ops and modes";
    Section::of_calls(name, 256, move |part, tally| {
        let mut draw = form.draw(42, part);
        for mode in (0x00..=0xFF).flat_map(|mode| std::iter::repeat_n(mode, draws)) {
            let call = wild_y(&mut draw, part as u8, mode);
            let record = wild_record(&mut draw);
            hold(tally, &mut draw, call, record);
        }
    })
}

/// A part is ten thousand draws.
pub fn faults(form: Form) -> Section {
    let parts = form.choose(500, 15);
    let name = "registers, several faults at once";
    Section::of_calls(name, parts, move |part, tally| {
        let mut draw = form.draw(43, part);
        for _ in 0..10_000 {
            let (call, record) = wild(&mut draw);
            hold(tally, &mut draw, call, record);
        }
    })
}
