//! The sections of what would trap.

use super::call::Call;
use super::held::{hold, hold_over, hold_to_martypc};
use super::operands::{about_limits, any_mode, at_borders, at_ends, drawn, wild, WORD_MODES};
use crate::form::Form;
use crate::section::Section;
use oracle::draw::Draw;
use oracle::request::ALL_FLAGS;

/// The flags of a full divide, of which none may matter.
fn flags(draw: &mut Draw) -> u16 {
    draw.bits() as u16 & ALL_FLAGS
}

/// A part is a mode and the upper half of the dividend. The modes of sixteen bits are given the same numbers.
pub fn bytes(form: Form) -> Section {
    Section::of_calls("trap, all pairs of 8 bits", 8 * 256, move |part, tally| {
        let mut draw = form.draw(28, part);
        let [mode, upper] = (part as u16).to_be_bytes();
        for lower in lowers(form, &mut draw) {
            let dividend = u32::from(upper) << 8 | lower;
            for divisor in 0x00..=0xFF {
                let call = Call {
                    mode,
                    dividend,
                    divisor,
                };
                hold(tally, call, flags(&mut draw));
            }
        }
    })
}

/// All; in the quick form those of dividends about 2^7 and 2^8 times any divisor, and two that are drawn.
fn lowers(form: Form, draw: &mut Draw) -> Vec<u32> {
    if form.full {
        return (0x00..=0xFF).collect();
    }
    let about = [0x00, 0x01, 0x7F, 0x80, 0x81, 0xFF];
    let drawn = [0, 1].map(|_| draw.below(256));
    [&about[..], &drawn].concat()
}

/// A part is a mode and a hundred thousand draws of it.
pub fn words(form: Form) -> Section {
    let parts = WORD_MODES.len() as u64 * form.choose(200, 2);
    Section::of_calls("trap, 16 bits, drawn", parts, move |part, tally| {
        let mut draw = form.draw(29, part);
        let mode = WORD_MODES[part as usize % WORD_MODES.len()];
        for _ in 0..100_000 {
            let call = drawn(&mut draw, mode);
            hold(tally, call, flags(&mut draw));
        }
    })
}

/// A part is the upper half of a divisor's magnitude.
pub fn borders(form: Form) -> Section {
    Section::of_calls("trap, 16 bits, at the borders", 256, move |part, tally| {
        let mut draw = form.draw(30, part);
        for lower in border_lowers(form, &mut draw) {
            let magnitude = (part as u16) << 8 | lower as u16;
            for call in at_borders(magnitude).chain(at_ends(magnitude)) {
                hold(tally, call, flags(&mut draw));
            }
        }
    })
}

/// All; in the quick form the ends, so that 0, 1, 8000 and FFFF are among the divisors, and some that are drawn.
pub fn border_lowers(form: Form, draw: &mut Draw) -> Vec<u32> {
    let mut lowers = form.bytes(draw);
    if !form.full {
        lowers.extend([0x00, 0x01, 0xFF]);
    }
    lowers
}

/// A part is a byte as the mode, whether there is such a mode or not.
pub fn limits(form: Form) -> Section {
    Section::of_calls("trap, modes and limits", 256, move |part, tally| {
        let mut draw = form.draw(31, part);
        let mode = part as u8;
        for call in about_limits(mode) {
            hold(tally, call, flags(&mut draw));
        }
        for _ in 0..form.choose(20_000, 500) {
            let call = wild(&mut draw, mode);
            hold(tally, call, flags(&mut draw));
        }
    })
}

/// A part is a mode and a hundred thousand draws of it.
pub fn martypc(form: Form) -> Section {
    Section::of_calls(
        "trap, beside MartyPC's own divides",
        8 * form.choose(100, 1),
        move |part, tally| {
            let mut draw = form.draw(32, part);
            for _ in 0..100_000 {
                let call = drawn(&mut draw, part as u8 & 0x07);
                hold_to_martypc(tally, call, flags(&mut draw));
            }
        },
    )
}

/// A part is what stands in the byte before a call, admitted or not.
pub fn befores(form: Form) -> Section {
    Section::of_calls(
        "trap, whatever stood there before",
        256,
        move |part, tally| {
            let mut draw = form.draw(33, part);
            for _ in 0..form.choose(20_000, 500) {
                let mode = any_mode(&mut draw);
                let call = wild(&mut draw, mode);
                hold_over(tally, part as u8, call, flags(&mut draw));
            }
        },
    )
}
