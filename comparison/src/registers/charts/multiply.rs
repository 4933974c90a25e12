//! The multiply chart.

use super::{szp, word, wrapped, A, C, O};
use crate::asked::Asked;
use crate::sides::Numbers;
use crate::trap::call::{REP, SIGNED, WORD};

pub fn numbers(asked: Asked) -> Numbers {
    let multiply = Multiply::from(asked);
    let bits = multiply.bits;
    let product = wrapped(multiply.product(), 2 * bits);
    let (r, s) = match bits {
        8 => (product, 0),
        _ => (product >> 16, product % 0x1_0000),
    };
    Numbers {
        status: 0,
        flags: multiply.flags(asked.flags),
        steps: multiply.steps(),
        r: r as u16,
        s: s as u16,
    }
}

/// The factors are the numbers that their bits stand for.
struct Multiply {
    bits: u32,
    signed: bool,
    rep: bool,
    x: i64,
    y: i64,
}

impl From<Asked> for Multiply {
    fn from(asked: Asked) -> Multiply {
        let bits = if asked.mode & WORD != 0 { 16 } else { 8 };
        let signed = asked.mode & SIGNED != 0;
        let number = |value: i64| match signed && value >= 1 << (bits - 1) {
            true => value - (1 << bits),
            false => value,
        };
        Multiply {
            bits,
            signed,
            rep: asked.mode & REP != 0,
            x: number(asked.x.into()),
            y: number(asked.y.into()),
        }
    }
}

impl Multiply {
    /// REP negates it.
    fn product(&self) -> i64 {
        let product = self.x * self.y;
        if self.rep {
            -product
        } else {
            product
        }
    }

    /// What is returned says more than its lower half does.
    fn carries(&self) -> bool {
        let half = 1 << (self.bits - 1);
        match self.signed {
            true => !(-half..half).contains(&self.product()),
            false => wrapped(self.product(), 2 * self.bits) >> self.bits != 0,
        }
    }

    /// A, S, Z and P of a signed one are those of a sum of sixteen bits: the upper half, with its sign, and the
    /// lower half's top bit.
    fn flags(&self, before: u16) -> u16 {
        let both = [(C, self.carries()), (O, self.carries())];
        if !self.signed {
            return before & !(C | O) | word(&both);
        }
        let upper = self.product() >> self.bits;
        let top = self.product() >> (self.bits - 1) & 1;
        let rest = szp(wrapped(upper + top, 16), 16);
        word(&both) | word(&rest) | word(&[(A, upper.rem_euclid(16) + top > 15)])
    }

    fn steps(&self) -> u16 {
        let carries = if self.carries() { 3 } else { 4 };
        let ones = self.x.unsigned_abs().count_ones();
        let steps = 15 + 6 * self.bits + ones + self.sign_steps() + self.negate_steps() + carries;
        steps as u16
    }

    /// What a signed one takes before the product.
    fn sign_steps(&self) -> u32 {
        let first = if self.x < 0 { 3 } else { 1 };
        let second = if self.y < 0 { 5 } else { 6 };
        if self.signed {
            3 + first + second
        } else {
            0
        }
    }

    /// NEGATE, where it runs on the product.
    fn negate_steps(&self) -> u32 {
        let has_top_bit = self.y.unsigned_abs() >> (self.bits - 1) != 0;
        match self.rep ^ (self.x < 0) ^ (self.y < 0) {
            false => 0,
            true if has_top_bit => 11,
            true => 12,
        }
    }
}
