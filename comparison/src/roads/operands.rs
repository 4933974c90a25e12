//! Calls that are worth holding: mostly accepted, at the borders of quotients, where a round turns, with one
//! quotient.

use crate::form::Form;
use crate::refused_flags::Divide;
use crate::trap::call::{Call, DIVIDE, REP, SIGNED, WORD};
use crate::trap::operands::{any_mode, wild, WORD_MODES};
use oracle::draw::Draw;
use oracle::request::Operation;

/// An admitted call in one of the eight modes. Of eight five are made from what comes of them and accepted, two are
/// made as requests are, often at an end of some range, and one has any operands.
pub fn drawn(draw: &mut Draw, mode: u8) -> Call {
    let divide = Operation::decode(DIVIDE, mode).expect("the mode is one of a divide");
    match draw.below(8) {
        0 => Call {
            mode,
            dividend: draw.bits() as u32 & divide.x_limit(),
            divisor: draw.bits() as u16 & divide.y_limit(),
        },
        1 | 2 => {
            let request = draw.request(&[divide]);
            Call {
                mode,
                dividend: request.x(),
                divisor: request.y(),
            }
        }
        _ => accepted(draw, mode),
    }
}

/// Any quotient, and any remainder of a divisor that is any half of the time, and small as often as large in the
/// other half.
fn accepted(draw: &mut Draw, mode: u8) -> Call {
    let signed = mode & SIGNED != 0;
    let bits = if mode & WORD != 0 { 16 } else { 8 };
    let quotients = 1 << if signed { bits - 1 } else { bits };
    let most = if signed { quotients } else { quotients - 1 };
    let narrow = draw.below(2) * draw.below(bits);
    let divisor = 1 + draw.below(most >> narrow);
    let dividend = draw.below(quotients) * divisor + draw.below(divisor);
    with_any_signs(draw, mode, dividend, divisor)
}

/// The magnitudes as operands of the mode, a signed one's with any signs.
fn with_any_signs(draw: &mut Draw, mode: u8, dividend: u32, divisor: u32) -> Call {
    let mut signed = |magnitude: u32| match mode & SIGNED != 0 && draw.below(2) == 0 {
        true => magnitude.wrapping_neg(),
        false => magnitude,
    };
    let (dividend, divisor) = (signed(dividend), signed(divisor) as u16);
    match mode & WORD {
        0 => Call {
            mode,
            dividend: dividend & 0xFFFF,
            divisor: divisor & 0xFF,
        },
        _ => Call {
            mode,
            dividend,
            divisor,
        },
    }
}

/// Divisors of sixteen bits about 2^15 and 2^16, and with few ones or few zeros.
pub fn divisors() -> Vec<u16> {
    let about = |number: u16| (0..5).map(move |place| number.wrapping_add(place).wrapping_sub(2));
    let bits = || (0..16).map(|bit| 1_u16 << bit);
    let two = bits().flat_map(|one| bits().map(move |other| one | other));
    let runs = (0..16).map(|zeros| u16::MAX << zeros);
    let mut all: Vec<u16> = about(0x8000).chain(about(0x0000)).chain(two).collect();
    all.extend(runs.chain(bits().map(|bit| !bit)));
    all.sort_unstable();
    all.dedup();
    all
}

/// Dividends whose quotient by this divisor only just is, or only just is not, one beside a power of 2 or the power
/// itself; among them are those at which refusals begin. Each has either sign, in two's complement, whatever the
/// mode makes of it.
pub fn at_borders(divisor: u16) -> impl Iterator<Item = Call> {
    WORD_MODES.into_iter().flat_map(move |mode| {
        let magnitude = magnitude(mode, divisor) as i64;
        let quotients =
            (0..=16).flat_map(|power| (-1..=1).map(move |beside| (1 << power) + beside));
        let dividends = quotients.flat_map(move |quotient: i64| {
            (-1..=1).flat_map(move |beside| {
                let dividend = quotient * magnitude + beside;
                [dividend as u32, -dividend as u32]
            })
        });
        dividends.map(move |dividend| Call {
            mode,
            dividend,
            divisor,
        })
    })
}

/// A call of sixteen bits in which a drawn round turns: what is compared there is one below, at, or one above the
/// divisor, or 2^16 if that can be reached. The rounds before it have any quotient, and the bits after it are any.
/// A signed one turns below the sign's place, but for one in sixteen, which is refused or not by its first round.
pub fn turning(draw: &mut Draw, mode: u8, divisor: u16) -> Call {
    let magnitude = magnitude(mode, divisor);
    let round = draw.below(16);
    let quotients = match mode & SIGNED != 0 {
        true => (1_u32 << round) / 2,
        false => 1 << round,
    };
    let before = u64::from(draw.below(quotients.max(1)));
    let at = match magnitude > 0x8000 && draw.below(2) == 0 {
        true => 0x1_0000,
        false => magnitude,
    };
    let compared = (at + u64::from(draw.below(3))).saturating_sub(1);
    let taken = 2 * before * magnitude + compared;
    let places = 15 - round;
    let dividend = taken << places | u64::from(draw.below(1 << places));
    let is_negative = mode & SIGNED != 0 && draw.below(2) == 0;
    Call {
        mode,
        dividend: match is_negative {
            true => (dividend as u32).wrapping_neg(),
            false => dividend as u32,
        },
        divisor,
    }
}

/// Of a divisor of sixteen bits.
fn magnitude(mode: u8, divisor: u16) -> u64 {
    Divide::new(16, mode & SIGNED != 0, 0, divisor.into()).divisor
}

/// A call of which nothing is sure, but that half of them are drawn so that most are accepted.
pub fn any(draw: &mut Draw) -> Call {
    let mode = any_mode(draw);
    match draw.below(2) {
        0 => wild(draw, mode),
        _ => drawn(draw, mode & 0x07),
    }
}

/// All unsigned divides of 8 bits with this quotient, with REP or without; in the quick form by every divisor with
/// no remainder, with the largest and with one that is drawn.
pub fn bytes_with(form: Form, draw: &mut Draw, quotient: u32) -> Vec<Call> {
    let mut calls = Vec::new();
    for divisor in 0x01..=0xFF {
        let remainders = match form.full {
            true => (0..divisor).collect(),
            false => vec![0, divisor - 1, draw.below(divisor)],
        };
        let with = |remainder| Call {
            mode: draw.pick(&[0, REP]),
            dividend: quotient * divisor + remainder,
            divisor: divisor as u16,
        };
        calls.extend(remainders.into_iter().map(with));
    }
    calls
}

/// A thousand unsigned divides of 16 bits with this quotient, with REP or without.
pub fn words_with(draw: &mut Draw, quotient: u32) -> Vec<Call> {
    let with = |_| {
        let divisor = 1 + draw.below(0xFFFF);
        Call {
            mode: draw.pick(&[WORD, WORD | REP]),
            dividend: quotient * divisor + draw.below(divisor),
            divisor: divisor as u16,
        }
    };
    (0..1_000).map(with).collect()
}
