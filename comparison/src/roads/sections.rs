//! The sections of the roads.

use super::held::{hold, hold_over, hold_to_martypc};
use super::law::Law;
use super::operands::{any, at_borders, bytes_with, divisors, drawn, turning, words_with};
use crate::form::Form;
use crate::section::Section;
use crate::trap::call::Call;
use crate::trap::operands::{about_limits, wild, WORD_MODES};
use crate::trap::sections::border_lowers;
use oracle::draw::Draw;

/// Unsigned, signed, and both with REP.
const BYTE_MODES: [u8; 4] = [0x00, 0x02, 0x04, 0x06];

/// A part is a mode and the upper half of the dividend.
pub fn bytes(form: Form) -> Section {
    Section::of_calls("roads, all pairs of 8 bits", 4 * 256, move |part, tally| {
        let mut draw = form.draw(46, part);
        let (mode, upper) = (BYTE_MODES[(part / 256) as usize], (part % 256) as u32);
        for lower in lowers(form, &mut draw) {
            for divisor in 0x00..=0xFF {
                let dividend = upper << 8 | lower;
                let call = Call {
                    mode,
                    dividend,
                    divisor,
                };
                hold(tally, &mut draw, call);
            }
        }
    })
}

/// All; in the quick form the ends, the middle, and one that is drawn.
fn lowers(form: Form, draw: &mut Draw) -> Vec<u32> {
    if form.full {
        return (0x00..=0xFF).collect();
    }
    vec![0x00, 0x7F, 0x80, 0xFF, draw.below(256)]
}

/// A part is a mode and fifty thousand draws of it.
pub fn words(form: Form) -> Section {
    let parts = WORD_MODES.len() as u64 * form.choose(200, 1);
    Section::of_calls("roads, 16 bits, drawn", parts, move |part, tally| {
        let mut draw = form.draw(47, part);
        let mode = WORD_MODES[part as usize % WORD_MODES.len()];
        for _ in 0..50_000 {
            let call = drawn(&mut draw, mode);
            hold(tally, &mut draw, call);
        }
    })
}

/// A part is a divisor.
pub fn borders(form: Form) -> Section {
    let divisors = divisors();
    let parts = divisors.len() as u64;
    let name = "roads, 16 bits, at the borders";
    Section::of_calls(name, parts, move |part, tally| {
        let mut draw = form.draw(48, part);
        for call in at_borders(divisors[part as usize]) {
            hold(tally, &mut draw, call);
        }
    })
}

/// A part is the upper half of a divisor.
pub fn turns(form: Form) -> Section {
    let name = "roads, 16 bits, where a round turns";
    Section::of_calls(name, 256, move |part, tally| {
        let mut draw = form.draw(49, part);
        for lower in border_lowers(form, &mut draw) {
            let divisor = (part as u16) << 8 | lower as u16;
            for mode in WORD_MODES.into_iter().cycle().take(form.choose(160, 16)) {
                let call = turning(&mut draw, mode, divisor);
                hold(tally, &mut draw, call);
            }
        }
    })
}

/// A part is a byte as the mode, whether there is such a mode or not.
pub fn limits(form: Form) -> Section {
    Section::of_calls("roads, modes and limits", 256, move |part, tally| {
        let mut draw = form.draw(50, part);
        let mode = part as u8;
        for call in about_limits(mode) {
            hold(tally, &mut draw, call);
        }
        for _ in 0..form.choose(20_000, 500) {
            let call = wild(&mut draw, mode);
            hold(tally, &mut draw, call);
        }
    })
}

/// A part is a quotient: each of 8 bits, and then some of 16 that are drawn.
pub fn equal_quotients(form: Form) -> Section {
    let parts = 256 + form.choose(4_000, 100);
    Section::of_calls("roads, equal quotients", parts, move |part, tally| {
        let mut draw = form.draw(51, part);
        let calls = match part {
            0x00..=0xFF => bytes_with(form, &mut draw, part as u32),
            _ => {
                let quotient = draw.below(0x1_0000);
                words_with(&mut draw, quotient)
            }
        };
        let mut law = Law::default();
        for call in calls {
            law.hold(tally, &mut draw, call);
        }
    })
}

/// A part is a mode and twenty-five thousand draws of it.
pub fn martypc(form: Form) -> Section {
    let name = "roads, beside MartyPC's own divides";
    Section::of_calls(name, 8 * form.choose(100, 1), move |part, tally| {
        let mut draw = form.draw(52, part);
        for _ in 0..25_000 {
            let call = drawn(&mut draw, part as u8 & 0x07);
            hold_to_martypc(tally, &mut draw, call);
        }
    })
}

/// A part is the upper half of what stands in one of the two numbers before a call, admitted or not. What stands in
/// the other is any.
pub fn befores(form: Form) -> Section {
    let name = "roads, whatever stood there before";
    Section::of_calls(name, 256, move |part, tally| {
        let mut draw = form.draw(53, part);
        for lower in form.bytes(&mut draw) {
            let word = (part as u16) << 8 | lower as u16;
            for _ in 0..form.choose(16, 4) {
                for place in [0, 1] {
                    let mut before = [draw.bits() as u16; 2];
                    before[place] = word;
                    let call = any(&mut draw);
                    hold_over(tally, &mut draw, before, call);
                }
            }
        }
    })
}
