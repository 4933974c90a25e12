//! The sections of refused divides, in which each side is held to the rule of their flags. What is
//! accepted is left to the sections that hold the two sides to each other.

use crate::asked::Asked;
use crate::form::Form;
use crate::refused_flags::Divide;
use crate::section::Section;
use crate::tally::Tally;
use oracle::draw::Draw;
use oracle::edges::{self, Composed};
use oracle::request::{Mode, Operation, Width, ALL_FLAGS};

fn modes(of: Width) -> Vec<Mode> {
    let mode = |operation| match operation {
        Operation::Divide(mode) if mode.width == of => Some(mode),
        _ => None,
    };
    Operation::all().filter_map(mode).collect()
}

/// None, all, and two that are drawn: enough to see whether any of them shows.
fn flag_sets(draw: &mut Draw) -> [u16; 4] {
    let [one, other] = [draw.bits(), draw.bits()].map(|bits| bits as u16 & ALL_FLAGS);
    [0, ALL_FLAGS, one, other]
}

/// Holds a divide to the rule, with each of the flag sets, if the rule has it refused.
fn hold(tally: &mut Tally, mode: Mode, sets: &[u16], (x, y): (u32, u16)) {
    let (op, mode) = Operation::Divide(mode).code();
    let asked = Asked {
        op,
        mode,
        flags: 0,
        x,
        y,
    };
    if let Some(ruled) = Divide::from(asked).ruled() {
        for &flags in sets {
            tally.hold_to_rule(Asked { flags, ..asked }, ruled);
        }
    }
}

/// A part is a mode and the upper half of the dividend.
pub fn bytes(form: Form) -> Section {
    let modes = modes(Width::Byte);
    Section::of_requests(
        "8 bits, refused divides by the rule",
        4 * 256,
        move |part, tally| {
            let mut draw = form.draw(13, part);
            let sets = flag_sets(&mut draw);
            let (mode, upper) = (modes[(part / 256) as usize], (part % 256) as u32);
            let lowers = form.bytes(&mut draw);
            for &lower in &lowers[..form.choose(256, 4)] {
                for y in 0x00..=0xFF {
                    hold(tally, mode, &sets, (upper << 8 | lower, y));
                }
            }
        },
    )
}

/// A part is a mode and ten thousand draws of it.
pub fn words(form: Form) -> Section {
    let modes = modes(Width::Word);
    let parts = modes.len() as u64 * form.choose(1000, 10);
    Section::of_requests(
        "16 bits, refused divides by the rule",
        parts,
        move |part, tally| {
            let mut draw = form.draw(14, part);
            let sets = flag_sets(&mut draw);
            let mode = modes[part as usize % modes.len()];
            for _ in 0..10_000 {
                let operands = operands(mode, &mut draw);
                hold(tally, mode, &sets, operands);
            }
        },
    )
}

/// Some have a divisor of 0 or any operands. Most are made from a quotient past its range, which for
/// signed divides is mostly in the sign range.
fn operands(mode: Mode, draw: &mut Draw) -> (u32, u16) {
    loop {
        let drawn = match draw.below(8) {
            0 => Some((draw.bits() as u32, 0)),
            1 => Some((draw.bits() as u32, draw.bits() as u16)),
            _ => past_its_range(mode, draw).operands(mode),
        };
        if let Some(operands) = drawn {
            return operands;
        }
    }
}

/// A quarter at the borders of the refusals. Half the divisors are edges.
fn past_its_range(mode: Mode, draw: &mut Draw) -> Composed {
    let past = edges::past(mode);
    let quotient = match draw.below(4) {
        0 => draw.pick(edges::refused_quotients(mode)),
        _ => past + draw.below(past),
    };
    let divisor = match draw.below(2) {
        0 => draw.pick(edges::of(mode.width)),
        _ => draw.bits() as u16,
    }
    .max(1);
    let remainder = match draw.below(4) {
        0 => 0,
        1 => u32::MAX,
        _ => draw.below(edges::magnitude(mode, divisor)),
    };
    Composed {
        quotient,
        divisor,
        remainder,
        dividend_negative: draw.below(2) == 0,
        divisor_negative: draw.below(2) == 0,
    }
}
