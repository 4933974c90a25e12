//! Refused divides with flags that the chip does not leave.

use comparison::asked::Asked;
use comparison::refused_flags::{Compare, Divide, Ruled};
use comparison::sides::{ours, Numbers, Side};
use oracle::Refused;

const C: u16 = 0x0001;
const S: u16 = 0x0080;
const O: u16 = 0x0800;

/// Each wrong rule by its name, and how many of the edges show it, at 8 and at 16 bits.
pub const RULES: [(&str, Side, [u64; 2]); 6] = [
    (
        "flags handed in",
        |asked| by(handed_in, asked),
        [145_630, 92_336],
    ),
    (
        "C of the last compare",
        |asked| by(carry_of_the_last_compare, asked),
        [10_432, 6_328],
    ),
    (
        "first compare for sign range",
        |asked| by(first_compare_alone, asked),
        [16_720, 10_620],
    ),
    (
        "S of the byte",
        |asked| by(sign_of_the_byte, asked),
        [33_800, 0],
    ),
    (
        "operands, not magnitudes",
        |asked| by(without_magnitudes, asked),
        [59_700, 37_804],
    ),
    (
        "O clear",
        |asked| by(overflow_clear, asked),
        [18_112, 8_324],
    ),
];

/// A refused divide: the request, and what the right rule says of it.
struct Refusal {
    asked: Asked,
    divide: Divide,
    ruled: Ruled,
}

impl Refusal {
    /// The flags of the right rule.
    fn flags(&self) -> u16 {
        self.ruled.compare.flags()
    }
}

/// The port, but that refused divides have the flags of a wrong rule.
fn by(rule: fn(&Refusal) -> u16, asked: Asked) -> Numbers {
    let given = ours(asked);
    if asked.op != 0x11 {
        return given;
    }
    let divide = Divide::from(asked);
    match divide.ruled() {
        Some(ruled) => {
            let flags = rule(&Refusal {
                asked,
                divide,
                ruled,
            });
            Numbers { flags, ..given }
        }
        None => given,
    }
}

fn handed_in(refusal: &Refusal) -> u16 {
    refusal.asked.flags
}

/// FF80 / 01 is one that shows it: its last compare borrows.
fn carry_of_the_last_compare(refusal: &Refusal) -> u16 {
    let Compare { left, right, .. } = refusal.ruled.compare;
    match refusal.ruled.why {
        Refused::SignRange if left < right => refusal.flags() | C,
        _ => refusal.flags(),
    }
}

fn first_compare_alone(refusal: &Refusal) -> u16 {
    refusal.divide.first_compare().flags()
}

fn sign_of_the_byte(refusal: &Refusal) -> u16 {
    let has_high_bit = refusal.ruled.compare.result() >> 7 & 1 != 0;
    if refusal.divide.bits == 8 && has_high_bit {
        refusal.flags() | S
    } else {
        refusal.flags()
    }
}

fn without_magnitudes(refusal: &Refusal) -> u16 {
    let (bits, asked) = (refusal.divide.bits, refusal.asked);
    let divide = Divide::new(bits, false, asked.x.into(), asked.y.into());
    let compare = match refusal.ruled.why {
        Refused::SignRange => divide.last_compare(),
        _ => divide.first_compare(),
    };
    compare.flags()
}

fn overflow_clear(refusal: &Refusal) -> u16 {
    refusal.flags() & !O
}
