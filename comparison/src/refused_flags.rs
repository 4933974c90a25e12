//! The flags of a refused divide, worked out from the rule in 64 bits, and not as either side does it.
//!
//! A divide that is refused at the first compare leaves A, O, S, Z and P of that compare; one that is
//! refused for its sign range leaves those of the last compare made. C is clear after both. A signed
//! divide compares magnitudes. No flag handed in shows.

use crate::asked::Asked;
use oracle::Refused;

const P: u16 = 0x0004;
const A: u16 = 0x0010;
const Z: u16 = 0x0040;
const S: u16 = 0x0080;
const O: u16 = 0x0800;

/// What the rule says of a refused divide.
#[derive(Clone, Copy, Debug, PartialEq, Eq)]
pub struct Ruled {
    pub why: Refused,
    /// The one whose flags are left.
    pub compare: Compare,
}

/// A divide, with the magnitudes of its operands if it is signed.
#[derive(Clone, Copy, Debug, PartialEq, Eq)]
pub struct Divide {
    pub bits: u32,
    pub signed: bool,
    pub dividend: u64,
    pub divisor: u64,
}

impl From<Asked> for Divide {
    /// Takes op and operands for those of an admitted divide.
    fn from(asked: Asked) -> Divide {
        let bits = if asked.mode & 1 != 0 { 16 } else { 8 };
        Divide::new(bits, asked.mode & 2 != 0, asked.x.into(), asked.y.into())
    }
}

impl Divide {
    /// Takes the operands as they stand in a request: 2N bits by N.
    pub fn new(bits: u32, signed: bool, dividend: u64, divisor: u64) -> Divide {
        let magnitude = |value: u64, bits: u32| {
            let is_negative = signed && value >> (bits - 1) != 0;
            if is_negative {
                (1 << bits) - value
            } else {
                value
            }
        };
        Divide {
            bits,
            signed,
            dividend: magnitude(dividend, 2 * bits),
            divisor: magnitude(divisor, bits),
        }
    }

    /// The quotient's magnitude; nothing by a divisor of 0.
    pub fn quotient(&self) -> Option<u64> {
        self.dividend.checked_div(self.divisor)
    }

    /// Nothing if the divide is accepted.
    pub fn ruled(&self) -> Option<Ruled> {
        let why = self.refused()?;
        let compare = match why {
            Refused::ZeroDivisor | Refused::TooWide => self.first_compare(),
            Refused::SignRange => self.last_compare(),
        };
        Some(Ruled { why, compare })
    }

    fn refused(&self) -> Option<Refused> {
        let range = 1 << self.bits;
        match self.quotient() {
            None => Some(Refused::ZeroDivisor),
            Some(quotient) if quotient >= range => Some(Refused::TooWide),
            Some(quotient) if self.signed && quotient >= range / 2 => Some(Refused::SignRange),
            Some(_) => None,
        }
    }

    /// The dividend's upper half beside the divisor.
    pub fn first_compare(&self) -> Compare {
        Compare {
            bits: self.bits,
            left: self.dividend >> self.bits,
            right: self.divisor,
        }
    }

    /// By long division, a bit a round. A round in which a bit is shifted out of the N bits needs no
    /// compare and makes none; of signed divides there is no such round, since a divisor's magnitude
    /// is at most 2^(N-1).
    pub fn last_compare(&self) -> Compare {
        let mut last = self.first_compare();
        let mut remainder = last.left;
        for place in (0..self.bits).rev() {
            let shifted = remainder << 1 | self.dividend >> place & 1;
            if shifted >> self.bits == 0 {
                last.left = shifted;
            }
            remainder = match shifted < self.divisor {
                true => shifted,
                false => shifted - self.divisor,
            };
        }
        last
    }
}

/// A subtraction of N bits of which only the flags are kept.
#[derive(Clone, Copy, Debug, PartialEq, Eq)]
pub struct Compare {
    pub bits: u32,
    pub left: u64,
    pub right: u64,
}

impl Compare {
    /// A, O, S, Z and P. The result is read as a word of 16 bits at both widths, so that S is clear
    /// at 8 bits.
    pub fn flags(&self) -> u16 {
        let result = self.result();
        let flags = [
            (A, self.left % 16 < self.right % 16),
            (O, self.overflows()),
            (S, result >> 15 != 0),
            (Z, result == 0),
            (P, (result % 256).count_ones() & 1 == 0),
        ];
        flags.iter().filter(|flag| flag.1).map(|flag| flag.0).sum()
    }

    pub fn result(&self) -> u64 {
        let range = 1 << self.bits;
        (self.left + range - self.right) % range
    }

    /// The operands as signed numbers have a difference that N bits cannot hold.
    fn overflows(&self) -> bool {
        let half = 1_i64 << (self.bits - 1);
        let signed = |value: u64| (value as i64 + half) % (2 * half) - half;
        !(-half..half).contains(&(signed(self.left) - signed(self.right)))
    }
}
