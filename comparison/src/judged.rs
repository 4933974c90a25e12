//! The sections on requests that are not admitted, and on those that only just are.

use crate::asked::Asked;
use crate::form::Form;
use crate::section::Section;
use oracle::draw::Draw;
use oracle::request::{Operation, ALL_FLAGS};

/// A part is an op, with all modes. Operands are wild as often as they are small, so that each
/// status is met alone and beside those that come after it.
pub fn ops_and_modes(form: Form) -> Section {
    let draws = form.choose(200, 8);
    Section::of_requests(
        "all ops and modes, drawn operands",
        256,
        move |part, tally| {
            let mut draw = form.draw(7, part);
            for mode in 0x00..=0xFF {
                for _ in 0..draws {
                    tally.hold(wild(part as u8, mode, &mut draw));
                }
            }
        },
    )
}

fn wild(op: u8, mode: u8, draw: &mut Draw) -> Asked {
    let narrow = [0xF, 0xFF, 0x1FF, 0xFFFF, 0x1_FFFF, u32::MAX];
    let x = draw.bits() as u32 & draw.pick(&narrow);
    let y = draw.bits() as u16 & draw.pick(&narrow) as u16;
    let flags = draw.bits() as u16 & draw.pick(&[0, ALL_FLAGS, ALL_FLAGS, 0xFFFF]);
    Asked {
        op,
        mode,
        flags,
        x,
        y,
    }
}

/// A part is an operation: operands about their limits, with every word as flags.
pub fn limits(form: Form) -> Section {
    let operations: Vec<Operation> = Operation::all().collect();
    let parts = operations.len() as u64;
    Section::of_requests(
        "operands at their limits, words as flags",
        parts,
        move |part, tally| {
            let operation = operations[part as usize];
            let (op, mode) = operation.code();
            let words = flag_words(form, &mut form.draw(8, part));
            for x in about(operation.x_limit(), u32::MAX) {
                for y in about(operation.y_limit().into(), u16::MAX.into()) {
                    for &flags in &words {
                        let y = y as u16;
                        tally.hold(Asked {
                            op,
                            mode,
                            flags,
                            x,
                            y,
                        });
                    }
                }
            }
        },
    )
}

/// The limit, its neighbours, and the ends of what the field holds.
fn about(limit: u32, most: u32) -> Vec<u32> {
    let mut values = vec![0, 1, limit.saturating_sub(1), limit];
    values.extend([limit.saturating_add(1), most].map(|value| value.min(most)));
    values.sort_unstable();
    values.dedup();
    values
}

/// Every word; in the quick form each single bit, none, all, and some that are drawn.
pub fn flag_words(form: Form, draw: &mut Draw) -> Vec<u16> {
    if form.full {
        return (0x0000..=0xFFFF).collect();
    }
    let mut words: Vec<u16> = (0..16).map(|bit| 1 << bit).collect();
    words.extend([0x0000, ALL_FLAGS, 0xFFFF]);
    words.extend((0..400).map(|_| draw.bits() as u16 & draw.pick(&[ALL_FLAGS, 0xFFFF])));
    words
}
