//! Calls that are worth holding: drawn, at the borders of the refusals, and such as are not admitted.

use super::call::{Call, DIVIDE};
use oracle::draw::Draw;
use oracle::request::Operation;

/// An admitted call in one of the eight modes. Half are made as requests are, mostly accepted and often at an
/// end of the quotient's range; half have any operands, which are refused as often as not.
pub fn drawn(draw: &mut Draw, mode: u8) -> Call {
    let divide = Operation::decode(DIVIDE, mode).expect("the mode is one of a divide");
    let (dividend, divisor) = match draw.below(2) {
        0 => {
            let request = draw.request(&[divide]);
            (request.x(), request.y())
        }
        _ => (
            draw.bits() as u32 & divide.x_limit(),
            draw.bits() as u16 & divide.y_limit(),
        ),
    };
    Call {
        mode,
        dividend,
        divisor,
    }
}

/// The modes of sixteen bits.
pub const WORD_MODES: [u8; 4] = [0x01, 0x03, 0x05, 0x07];

/// All of sixteen bits about the borders of one magnitude: the dividend is one below, at and one above 2^15 and
/// 2^16 times the divisor, and both have either sign. A sign is put on in two's complement, whatever the mode
/// makes of it.
pub fn at_borders(magnitude: u16) -> impl Iterator<Item = Call> {
    let border = move |times: i64| times * i64::from(magnitude);
    let borders = [border(1 << 15), border(1 << 16)];
    let about = borders.into_iter().flat_map(|at| [at - 1, at, at + 1]);
    let signed = about.flat_map(|dividend| [dividend as u32, -dividend as u32]);
    signed.flat_map(move |dividend| by_either_sign(dividend, magnitude))
}

/// Dividends at the ends of what a signed one holds, the lowest among them, by one magnitude.
pub fn at_ends(magnitude: u16) -> impl Iterator<Item = Call> {
    let ends = [0x7FFF_FFFF, 0x8000_0000, 0x8000_0001, 0xFFFF_FFFF];
    ends.into_iter()
        .flat_map(move |dividend| by_either_sign(dividend, magnitude))
}

fn by_either_sign(dividend: u32, magnitude: u16) -> impl Iterator<Item = Call> {
    let divisors = [magnitude, magnitude.wrapping_neg()];
    divisors.into_iter().flat_map(move |divisor| {
        WORD_MODES.map(|mode| Call {
            mode,
            dividend,
            divisor,
        })
    })
}

/// A call in any mode whose operands are wild as often as they are small, so that each refusal is met alone and
/// beside the other.
pub fn wild(draw: &mut Draw, mode: u8) -> Call {
    let narrow = [0xF, 0xFF, 0x1FF, 0xFFFF, 0x1_FFFF, u32::MAX];
    Call {
        mode,
        dividend: draw.bits() as u32 & draw.pick(&narrow),
        divisor: draw.bits() as u16 & draw.pick(&narrow) as u16,
    }
}

/// Every pair of operands about the limits of both widths, and of single bits, in one mode.
pub fn about_limits(mode: u8) -> impl Iterator<Item = Call> {
    dividends().flat_map(move |dividend| {
        divisors().map(move |divisor| Call {
            mode,
            dividend,
            divisor,
        })
    })
}

fn dividends() -> impl Iterator<Item = u32> {
    let limits = [0, 0xFFFE, 0xFFFF, 0x1_0001, u32::MAX];
    limits.into_iter().chain((0..32).map(|bit| 1 << bit))
}

fn divisors() -> impl Iterator<Item = u16> {
    let limits = [0, 0xFE, 0xFF, 0x101, u16::MAX];
    limits.into_iter().chain((0..16).map(|bit| 1 << bit))
}

/// Of any byte as a mode, half the time one that there is.
pub fn any_mode(draw: &mut Draw) -> u8 {
    draw.bits() as u8 & draw.pick(&[0x07, 0xFF])
}
