//! Which of the three refusals a refused divide is.
//!
//! MartyPC has one error for all of them. Here the operands tell, by 64-bit
//! arithmetic that owes nothing to MartyPC's code or to what it leaves behind.

use crate::request::{Mode, Request};
use std::fmt;

/// Why a divide is refused. The numbers are the statuses of the scope, and the
/// first that applies is given.
#[derive(Clone, Copy, Debug, PartialEq, Eq)]
#[repr(u8)]
pub enum Refused {
    ZeroDivisor = 6,
    /// The magnitude of the quotient needs more bits than the width has.
    TooWide = 8,
    /// It needs no more, but leaves none for the sign. Signed divides alone.
    SignRange = 9,
}

impl Refused {
    /// All of them, in the order in which they are tested.
    pub const ALL: [Refused; 3] = [Refused::ZeroDivisor, Refused::TooWide, Refused::SignRange];

    pub const fn status(self) -> u8 {
        self as u8
    }

    /// Why X cannot be divided by Y; nothing if it can.
    pub fn of(mode: Mode, x: u32, y: u16) -> Option<Refused> {
        let (dividend, divisor) = numbers(mode, x, y);
        if divisor == 0 {
            return Some(Refused::ZeroDivisor);
        }
        let magnitude = (dividend / divisor).abs();
        if magnitude >= 1 << mode.width.bits() {
            Some(Refused::TooWide)
        } else if mode.signed && magnitude >= 1 << (mode.width.bits() - 1) {
            Some(Refused::SignRange)
        } else {
            None
        }
    }

    /// Why MartyPC refuses a divide that it does refuse. It panics where there
    /// is no reason: one side is then wrong, and no status may hide that.
    pub fn of_refused(mode: Mode, request: &Request) -> Refused {
        match Refused::of(mode, request.x(), request.y()) {
            Some(refused) => refused,
            None => unfounded(mode, request),
        }
    }
}

impl fmt::Display for Refused {
    fn fmt(&self, out: &mut fmt::Formatter) -> fmt::Result {
        out.pad(match self {
            Refused::ZeroDivisor => "zero divisor",
            Refused::TooWide => "too wide",
            Refused::SignRange => "sign range",
        })
    }
}

/// Dividend and divisor as the mode reads their bits.
fn numbers(mode: Mode, x: u32, y: u16) -> (i64, i64) {
    let bits = mode.width.bits();
    let read = |value: u32, bits: u32| {
        let above = if mode.signed { 64 - bits } else { 0 };
        i64::from(value) << above >> above
    };
    (read(x, 2 * bits), read(y.into(), bits))
}

#[cold]
fn unfounded(mode: Mode, request: &Request) -> ! {
    let (dividend, divisor) = numbers(mode, request.x(), request.y());
    let line = request.to_line();
    panic!(
        "MartyPC refuses the request {}, a divide of {dividend} by {divisor} ({}, {} bits{}), and \
         64-bit arithmetic finds no reason: the quotient is {}, which fits. Look for the fault in \
         muldiv.rs of the tree that MARTYPC_TREE names, in oracle/src/shim.rs and in \
         oracle/src/refusal.rs.",
        String::from_utf8_lossy(&line).trim_end(),
        if mode.signed { "signed" } else { "unsigned" },
        mode.width.bits(),
        if mode.rep { ", REP" } else { "" },
        dividend / divisor
    );
}

#[cfg(test)]
mod tests {
    use super::Refused::{self, SignRange, TooWide, ZeroDivisor};
    use crate::request::{Mode, Operation, Request, Width};

    /// X, Y and the refusal.
    type Row = (u32, u16, Option<Refused>);

    fn hold(width: Width, signed: bool, rows: &[Row]) {
        for &(x, y, refused) in rows {
            for rep in [false, true] {
                let mode = Mode { width, signed, rep };
                assert_eq!(Refused::of(mode, x, y), refused, "{mode:?} {x:X} / {y:X}");
            }
        }
    }

    #[test]
    fn unsigned_bytes() {
        hold(
            Width::Byte,
            false,
            &[
                (0x0000, 0x00, Some(ZeroDivisor)),
                (0xFFFF, 0x00, Some(ZeroDivisor)),
                (0x0000, 0x01, None),
                (0x007F, 0x01, None),
                (0x0080, 0x01, None),
                (0x00FF, 0x01, None),
                (0x0100, 0x01, Some(TooWide)),
                (0xFEFF, 0xFF, None),
                (0xFF00, 0xFF, Some(TooWide)),
                (0xFFFF, 0xFF, Some(TooWide)),
            ],
        );
    }

    #[test]
    fn unsigned_words() {
        hold(
            Width::Word,
            false,
            &[
                (0x0000_0000, 0x0000, Some(ZeroDivisor)),
                (0xFFFF_FFFF, 0x0000, Some(ZeroDivisor)),
                (0x0000_0000, 0x0001, None),
                (0x0000_7FFF, 0x0001, None),
                (0x0000_8000, 0x0001, None),
                (0x0000_FFFF, 0x0001, None),
                (0x0001_0000, 0x0001, Some(TooWide)),
                (0xFFFE_FFFF, 0xFFFF, None),
                (0xFFFF_0000, 0xFFFF, Some(TooWide)),
                (0xFFFF_FFFF, 0xFFFF, Some(TooWide)),
            ],
        );
    }

    /// By 1, -1, the largest divisor and the lowest, with dividends of both
    /// signs, the lowest of them last.
    #[test]
    fn signed_bytes() {
        hold(
            Width::Byte,
            true,
            &[
                (0x0000, 0x00, Some(ZeroDivisor)),
                (0x0080, 0x00, Some(ZeroDivisor)),
                (0x8000, 0x00, Some(ZeroDivisor)),
                (0x0000, 0x01, None),
                (0x007F, 0x01, None),
                (0x0080, 0x01, Some(SignRange)),
                (0x00FF, 0x01, Some(SignRange)),
                (0x0100, 0x01, Some(TooWide)),
                (0xFF81, 0x01, None),
                (0xFF80, 0x01, Some(SignRange)),
                (0xFF01, 0x01, Some(SignRange)),
                (0xFF00, 0x01, Some(TooWide)),
                (0x007F, 0xFF, None),
                (0x0080, 0xFF, Some(SignRange)),
                (0x00FF, 0xFF, Some(SignRange)),
                (0x0100, 0xFF, Some(TooWide)),
                (0xFF81, 0xFF, None),
                (0xFF80, 0xFF, Some(SignRange)),
                (0xFF01, 0xFF, Some(SignRange)),
                (0xFF00, 0xFF, Some(TooWide)),
                (0x3F7F, 0x7F, None),
                (0x3F80, 0x7F, Some(SignRange)),
                (0x7EFF, 0x7F, Some(SignRange)),
                (0x7F00, 0x7F, Some(TooWide)),
                (0x3FFF, 0x80, None),
                (0x4000, 0x80, Some(SignRange)),
                (0x7FFF, 0x80, Some(SignRange)),
                (0x8001, 0x80, Some(SignRange)),
                (0x8000, 0x80, Some(TooWide)),
            ],
        );
    }

    #[test]
    fn signed_words() {
        hold(
            Width::Word,
            true,
            &[
                (0x0000_0000, 0x0000, Some(ZeroDivisor)),
                (0x0000_8000, 0x0000, Some(ZeroDivisor)),
                (0x8000_0000, 0x0000, Some(ZeroDivisor)),
                (0x0000_0000, 0x0001, None),
                (0x0000_7FFF, 0x0001, None),
                (0x0000_8000, 0x0001, Some(SignRange)),
                (0x0000_FFFF, 0x0001, Some(SignRange)),
                (0x0001_0000, 0x0001, Some(TooWide)),
                (0xFFFF_8001, 0x0001, None),
                (0xFFFF_8000, 0x0001, Some(SignRange)),
                (0xFFFF_0001, 0x0001, Some(SignRange)),
                (0xFFFF_0000, 0x0001, Some(TooWide)),
                (0x0000_7FFF, 0xFFFF, None),
                (0x0000_8000, 0xFFFF, Some(SignRange)),
                (0x0000_FFFF, 0xFFFF, Some(SignRange)),
                (0x0001_0000, 0xFFFF, Some(TooWide)),
                (0xFFFF_8001, 0xFFFF, None),
                (0xFFFF_8000, 0xFFFF, Some(SignRange)),
                (0xFFFF_0001, 0xFFFF, Some(SignRange)),
                (0xFFFF_0000, 0xFFFF, Some(TooWide)),
                (0x3FFF_7FFF, 0x7FFF, None),
                (0x3FFF_8000, 0x7FFF, Some(SignRange)),
                (0x7FFE_FFFF, 0x7FFF, Some(SignRange)),
                (0x7FFF_0000, 0x7FFF, Some(TooWide)),
                (0x3FFF_FFFF, 0x8000, None),
                (0x4000_0000, 0x8000, Some(SignRange)),
                (0x7FFF_FFFF, 0x8000, Some(SignRange)),
                (0x8000_0001, 0x8000, Some(SignRange)),
                (0x8000_0000, 0x8000, Some(TooWide)),
            ],
        );
    }

    #[test]
    fn each_has_its_status() {
        assert_eq!(Refused::ALL.map(Refused::status), [6, 8, 9]);
    }

    #[test]
    #[should_panic(
        expected = "the request 110200000000000700FE, a divide of 7 by -2 (signed, 8 bits)"
    )]
    fn a_refusal_without_a_reason_is_loud() {
        let mode = Mode {
            width: Width::Byte,
            signed: true,
            rep: false,
        };
        let request = Request::new(Operation::Divide(mode), 0, 7, 0xFE).unwrap();
        Refused::of_refused(mode, &request);
    }
}
