//! Divides one to either side of each border: between accepted and refused, and
//! between the refusals. The edges hold such divides too, but the recorded list
//! takes only a sample of the edges, and of these it takes all.

use crate::edges::{Composed, KEPT_FLAGS};
use crate::request::{Mode, Operation, Request};

/// The borders of every mode of the divide.
pub fn requests() -> Vec<Request> {
    let divides = Operation::all().filter_map(|operation| match operation {
        Operation::Divide(mode) => Some(mode),
        _ => None,
    });
    divides.flat_map(of_mode).collect()
}

fn of_mode(mode: Mode) -> Vec<Request> {
    let mut operands = about_zero(mode);
    for quotient in [half(mode), half(mode) * 2] {
        operands.extend(about_quotient(mode, quotient));
    }
    // The lowest divisor and dividend are the same under either sign.
    operands.sort_unstable();
    operands.dedup();
    let with_flags = |(x, y)| KEPT_FLAGS.map(|flags| (flags, x, y));
    let asked = operands.into_iter().flat_map(with_flags);
    asked
        .map(|(flags, x, y)| {
            let request = Request::new(Operation::Divide(mode), flags, x, y);
            request.expect("borders are admitted")
        })
        .collect()
}

/// The width's highest bit alone: a signed quotient is refused from here on, an
/// unsigned one from twice that.
fn half(mode: Mode) -> u32 {
    1 << (mode.width.bits() - 1)
}

/// The divisors 0, 1 and that of all ones under the same dividends, among them
/// one for each outcome by 1.
fn about_zero(mode: Mode) -> Vec<(u32, u16)> {
    let limits = Operation::Divide(mode);
    let dividends = [0, 1, half(mode), half(mode) * 2, limits.x_limit()];
    let by = |dividend| [0, 1, limits.y_limit()].map(|divisor| (dividend, divisor));
    dividends.into_iter().flat_map(by).collect()
}

/// The last dividend before this quotient and the first with it, by the
/// smallest divisor and the largest ones.
fn about_quotient(mode: Mode, quotient: u32) -> Vec<(u32, u16)> {
    let half = half(mode) as u16;
    let largest = if mode.signed {
        half - 1
    } else {
        Operation::Divide(mode).y_limit()
    };
    let sides = |divisor| {
        [(quotient - 1, u32::MAX), (quotient, 0)].map(|(quotient, remainder)| Composed {
            quotient,
            divisor,
            remainder,
            dividend_negative: false,
            divisor_negative: false,
        })
    };
    let composed = [1, half, largest].into_iter().flat_map(sides);
    composed
        .flat_map(|composed| composed.with_all_signs(mode))
        .collect()
}
