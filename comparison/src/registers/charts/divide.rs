//! The divide chart. The compares of the long division, and their flags, are those of `refused_flags`.

use super::{wrapped, C, O};
use crate::asked::Asked;
use crate::refused_flags::{Divide, Ruled};
use crate::sides::{refused, Numbers};
use crate::trap::call::{REP, SIGNED};
use oracle::Refused;

pub fn numbers(asked: Asked) -> Numbers {
    let charted = Charted::from(asked);
    match charted.divide.ruled() {
        Some(ruled) => Numbers {
            flags: ruled.compare.flags(),
            steps: charted.refused_steps(&ruled) as u16,
            ..refused(ruled.why.status())
        },
        None => charted.accepted(asked.mode & REP != 0),
    }
}

/// A divide of magnitudes, and which operands were below 0.
struct Charted {
    divide: Divide,
    dividend_negative: bool,
    divisor_negative: bool,
}

impl From<Asked> for Charted {
    fn from(asked: Asked) -> Charted {
        let divide = Divide::from(asked);
        let is_signed = asked.mode & SIGNED != 0;
        Charted {
            dividend_negative: is_signed && asked.x >> (2 * divide.bits - 1) != 0,
            divisor_negative: is_signed && asked.y >> (divide.bits - 1) != 0,
            divide,
        }
    }
}

impl Charted {
    /// Of a divisor that is not 0 by then.
    fn quotient(&self) -> u64 {
        self.divide.dividend / self.divide.divisor
    }

    /// The quotient has the sign of both, and is negated under REP if it is signed; the remainder has the
    /// dividend's.
    fn accepted(&self, rep: bool) -> Numbers {
        let Divide { bits, signed, .. } = self.divide;
        let with_sign = |magnitude: u64, is_negative: bool| {
            let number = magnitude as i64;
            wrapped(if is_negative { -number } else { number }, bits) as u16
        };
        let is_negative = self.dividend_negative ^ self.divisor_negative ^ (signed && rep);
        let remainder = self.divide.dividend % self.divide.divisor;
        Numbers {
            status: 0,
            flags: self.accepted_flags(),
            steps: self.accepted_steps() as u16,
            r: with_sign(self.quotient(), is_negative),
            s: with_sign(remainder, self.dividend_negative),
        }
    }

    fn accepted_flags(&self) -> u16 {
        let compared = self.divide.last_compare().flags();
        let is_low = self.quotient() < 1 << (self.divide.bits - 1);
        match self.divide.signed {
            true => compared & !O,
            false if is_low => compared | C,
            false => compared,
        }
    }

    fn accepted_steps(&self) -> u32 {
        match self.divide.signed {
            true => 19 + self.pre_steps() + self.cord_steps(),
            false => 7 + self.cord_steps(),
        }
    }

    fn refused_steps(&self, ruled: &Ruled) -> u32 {
        match (self.divide.signed, ruled.why) {
            (false, _) => 9,
            (true, Refused::SignRange) => 11 + self.pre_steps() + self.cord_steps(),
            (true, _) => 10 + self.pre_steps(),
        }
    }

    /// PREIDIV.
    fn pre_steps(&self) -> u32 {
        let first = if self.dividend_negative { 7 } else { 3 };
        let second = if self.divisor_negative { 5 } else { 6 };
        first + second
    }

    /// CORD, past its first compare: one more for each 1 of the quotient that no bit shifted out has made.
    fn cord_steps(&self) -> u32 {
        let quotient = self.quotient();
        let no_borrows = quotient.count_ones() - self.shifted_out();
        let odd = if quotient % 2 == 1 { 2 } else { 0 };
        6 + 8 * self.divide.bits + no_borrows + odd
    }

    /// The rounds in which what was left so far had its top bit set. It is below the divisor, so that a
    /// small divisor has none.
    fn shifted_out(&self) -> u32 {
        let Divide {
            bits,
            dividend,
            divisor,
            ..
        } = self.divide;
        let top = 1 << (bits - 1);
        if divisor <= top {
            return 0;
        }
        let rounds = (1..=bits).filter(|places| (dividend >> places) % divisor >= top);
        rounds.count() as u32
    }
}
