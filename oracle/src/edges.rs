//! Operands at which something changes, and every combination of them.
//!
//! Faults of a port gather at carries, signs, table bounds and the ends of the
//! quotient's range. Operands drawn evenly seldom land there.

use crate::request::{Alu, Decimal, Mode, Operation, Request, Width, ALL_FLAGS};

/// Bytes at a carry, a sign change or a bound of the decimal chart.
pub const BYTES: [u16; 33] = [
    0x00, 0x01, 0x02, 0x05, 0x06, 0x07, 0x09, 0x0A, 0x0F, 0x10, 0x11, 0x19, 0x1A, 0x79, 0x7A, 0x7E,
    0x7F, 0x80, 0x81, 0x85, 0x86, 0x99, 0x9A, 0x9F, 0xA0, 0xDF, 0xE0, 0xE5, 0xE6, 0xF9, 0xFA, 0xFE,
    0xFF,
];

/// Words at a carry or a sign change, of the word or of its lower byte.
pub const WORDS: [u16; 28] = [
    0x0000, 0x0001, 0x0002, 0x000F, 0x0010, 0x007F, 0x0080, 0x0081, 0x00FE, 0x00FF, 0x0100, 0x0101,
    0x5555, 0x7FFE, 0x7FFF, 0x8000, 0x8001, 0x8002, 0xAAAA, 0xC000, 0xFEFF, 0xFF00, 0xFF7F, 0xFF80,
    0xFF81, 0xFFFD, 0xFFFE, 0xFFFF,
];

/// Counts about the two widths, the rotations through carry, and 32. A port
/// that masks counts to five bits differs from 32 on.
pub const COUNTS: [u16; 22] = [
    0, 1, 2, 7, 8, 9, 10, 15, 16, 17, 18, 24, 31, 32, 33, 34, 63, 64, 127, 128, 254, 255,
];

/// C and A are the only flags that an operation reads. Each pair of them comes
/// once with the other flags clear and once with them set.
const READ_FLAGS: [u16; 8] = [
    0x0000, 0x0001, 0x0010, 0x0011, 0x08C4, 0x08C5, 0x08D4, ALL_FLAGS,
];

/// Enough where no flag is read: one set shows what is cleared, one what is set.
pub(crate) const KEPT_FLAGS: [u16; 2] = [0x0000, ALL_FLAGS];

/// The edges of a width.
pub fn of(width: Width) -> &'static [u16] {
    match width {
        Width::Byte => &BYTES,
        Width::Word => &WORDS,
    }
}

/// A divide built from its outcome. Signs are read only in signed modes, and
/// the lowest number of a width is negative whatever they say.
#[derive(Clone, Copy, Debug)]
pub struct Composed {
    /// In signed modes its magnitude.
    pub quotient: u32,
    /// The divisor's bits; not 0. A signed divide takes their magnitude.
    pub divisor: u16,
    /// Cut to what the divisor allows.
    pub remainder: u32,
    pub dividend_negative: bool,
    pub divisor_negative: bool,
}

impl Composed {
    /// The X and Y that give this outcome, or would if a quotient past its
    /// range were not refused. Nothing if no dividend is so large.
    pub fn operands(self, mode: Mode) -> Option<(u32, u16)> {
        let divisor = magnitude(mode, self.divisor);
        let remainder = self.remainder.min(divisor - 1);
        let dividend = u64::from(self.quotient) * u64::from(divisor) + u64::from(remainder);
        if dividend > largest_dividend(mode) {
            return None;
        }
        let signed = |value: u32, negative: bool| {
            if mode.signed && negative {
                value.wrapping_neg()
            } else {
                value
            }
        };
        let x = signed(dividend as u32, self.dividend_negative);
        let y = signed(divisor, self.divisor_negative);
        let limits = Operation::Divide(mode);
        Some((x & limits.x_limit(), y as u16 & limits.y_limit()))
    }

    /// The operands with every pair of signs that the mode reads.
    pub fn with_all_signs(self, mode: Mode) -> impl Iterator<Item = (u32, u16)> {
        let pairs = if mode.signed { 4 } else { 1 };
        (0..pairs).filter_map(move |signs| {
            let signed = Composed {
                dividend_negative: signs & 1 != 0,
                divisor_negative: signs & 2 != 0,
                ..self
            };
            signed.operands(mode)
        })
    }
}

/// In signed modes the magnitude of the lowest dividend.
fn largest_dividend(mode: Mode) -> u64 {
    let largest = u64::from(Operation::Divide(mode).x_limit());
    if mode.signed {
        largest / 2 + 1
    } else {
        largest
    }
}

/// The size of a divisor, its sign put aside in signed modes.
pub fn magnitude(mode: Mode, divisor: u16) -> u32 {
    let divisor = u32::from(divisor);
    if mode.signed && divisor >> (mode.width.bits() - 1) != 0 {
        mode.width.largest() + 1 - divisor
    } else {
        divisor
    }
}

/// The first quotient past the range; in signed modes its magnitude.
pub fn past(mode: Mode) -> u32 {
    if mode.signed {
        1 << (mode.width.bits() - 1)
    } else {
        1 << mode.width.bits()
    }
}

/// Quotients at both ends and the middle of their range.
pub fn quotients(mode: Mode) -> [u32; 7] {
    let past = past(mode);
    [0, 1, 2, past / 2 - 1, past / 2, past - 2, past - 1]
}

/// Quotients past the range: the first and the last for which a divide is
/// refused for its sign range, and the first two that are too wide.
pub fn refused_quotients(mode: Mode) -> &'static [u32] {
    match (mode.width, mode.signed) {
        (Width::Byte, false) => &[0x100, 0x101],
        (Width::Byte, true) => &[0x80, 0xFF, 0x100, 0x101],
        (Width::Word, false) => &[0x1_0000, 0x1_0001],
        (Width::Word, true) => &[0x8000, 0xFFFF, 0x1_0000, 0x1_0001],
    }
}

/// Hands over every combination of edge operands of one operation, in a fixed
/// order. It stops at the first error of the taker.
pub fn each<E>(
    operation: Operation,
    take: &mut impl FnMut(Request) -> Result<(), E>,
) -> Result<(), E> {
    let flags = flags(operation);
    for x in lefts(operation) {
        for &y in rights(operation) {
            give(operation, flags, x, y, take)?;
        }
    }
    match operation {
        Operation::Divide(mode) => each_composed(mode, take),
        _ => Ok(()),
    }
}

fn each_composed<E>(mode: Mode, take: &mut impl FnMut(Request) -> Result<(), E>) -> Result<(), E> {
    let quotients = [&quotients(mode), refused_quotients(mode)].concat();
    for &divisor in of(mode.width).iter().filter(|&&divisor| divisor != 0) {
        for &quotient in &quotients {
            for remainder in [0, 1, u32::MAX] {
                let composed = Composed {
                    quotient,
                    divisor,
                    remainder,
                    dividend_negative: false,
                    divisor_negative: false,
                };
                for (x, y) in composed.with_all_signs(mode) {
                    give(Operation::Divide(mode), &KEPT_FLAGS, x, y, take)?;
                }
            }
        }
    }
    Ok(())
}

fn give<E>(
    operation: Operation,
    flags: &[u16],
    x: u32,
    y: u16,
    take: &mut impl FnMut(Request) -> Result<(), E>,
) -> Result<(), E> {
    for &flags in flags {
        take(Request::new(operation, flags, x, y).expect("edges are admitted"))?;
    }
    Ok(())
}

fn flags(operation: Operation) -> &'static [u16] {
    match operation {
        Operation::Alu(Alu::Adc | Alu::Sbb | Alu::Rcl | Alu::Rcr, _) => &READ_FLAGS,
        Operation::Decimal(Decimal::Aad) => &KEPT_FLAGS,
        Operation::Decimal(_) => &READ_FLAGS,
        _ => &KEPT_FLAGS,
    }
}

/// Every AL is taken for an adjust, because the decimal chart has many bounds.
fn lefts(operation: Operation) -> Vec<u32> {
    let halves = |highs: &[u16], lows: &[u16], shift: u32| {
        let join = |high: &u16, low: &u16| u32::from(*high) << shift | u32::from(*low);
        let joined = |high| lows.iter().map(move |low| join(high, low));
        highs.iter().flat_map(joined).collect()
    };
    let every_byte: Vec<u16> = (0x00..=0xFF).collect();
    match operation {
        Operation::Alu(_, width) | Operation::Multiply(Mode { width, .. }) => {
            halves(&[0], of(width), 0)
        }
        Operation::Divide(mode) => halves(of(mode.width), of(mode.width), mode.width.bits()),
        Operation::Decimal(Decimal::Aad) => halves(&BYTES, &BYTES, 8),
        Operation::Decimal(_) => halves(&[0x00, 0x01, 0x7F, 0x80, 0xFF], &every_byte, 8),
    }
}

fn rights(operation: Operation) -> &'static [u16] {
    match operation {
        Operation::Alu(Alu::Neg, _) => &[0],
        Operation::Alu(alu, _) if alu.counts() => &COUNTS,
        Operation::Alu(_, width) => of(width),
        Operation::Multiply(mode) | Operation::Divide(mode) => of(mode.width),
        Operation::Decimal(Decimal::Aad) => &BYTES,
        Operation::Decimal(_) => &[0],
    }
}
