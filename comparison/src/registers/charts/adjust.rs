//! The decimal chart.

use super::{szp, word, wrapped, A, C, O, P, S, Z};
use crate::asked::Asked;
use crate::registers::call::AAD;
use crate::sides::Numbers;

const AAA: u8 = 0x18;
const AAS: u8 = 0x19;
const DAA: u8 = 0x1B;

pub fn numbers(asked: Asked) -> Numbers {
    let before = Before::from(asked);
    match asked.op {
        AAA => before.ascii(1, before.aaa_overflow_and_sign()),
        AAS => before.ascii(-1, before.aas_overflow_and_sign()),
        AAD => before.aad(asked.flags, asked.y),
        DAA => before.decimal(1, before.daa_overflow()),
        _ => before.decimal(-1, before.das_overflow()),
    }
}

/// AH, AL and the two flags that are read.
struct Before {
    ah: i64,
    al: i64,
    a: bool,
    c: bool,
}

impl From<Asked> for Before {
    fn from(asked: Asked) -> Before {
        let ax = i64::from(asked.x);
        Before {
            ah: ax / 256,
            al: ax % 256,
            a: asked.flags & A != 0,
            c: asked.flags & C != 0,
        }
    }
}

impl Before {
    fn low_test(&self) -> bool {
        self.al % 16 > 9 || self.a
    }

    fn high_test(&self) -> bool {
        let most = if self.a { 0x9F } else { 0x99 };
        self.al > most || self.c
    }

    /// AAA goes up, AAS down.
    fn ascii(&self, direction: i64, [overflow, sign]: [bool; 2]) -> Numbers {
        let test = self.low_test();
        let times = if test { direction } else { 0 };
        let (ah, al) = (wrapped(self.ah + times, 8), wrapped(self.al + 6 * times, 8));
        let [_, zero, parity] = szp(al, 8);
        let named = [(A, test), (C, test), (O, overflow), (S, sign)];
        Numbers {
            steps: if test { 6 } else { 7 },
            ..adjusted(word(&named) | word(&[zero, parity]), ah, al % 16)
        }
    }

    fn aaa_overflow_and_sign(&self) -> [bool; 2] {
        [self.in_range(0x7A, 0x7F), self.in_range(0x7A, 0xF9)]
    }

    fn aas_overflow_and_sign(&self) -> [bool; 2] {
        match self.a {
            true => [
                self.in_range(0x80, 0x85),
                self.in_range(0x00, 0x05) || self.in_range(0x86, 0xFF),
            ],
            false => [false, self.in_range(0x80, 0xFF)],
        }
    }

    fn aad(&self, flags: u16, y: u16) -> Numbers {
        let al = wrapped(self.al + self.ah * i64::from(y), 8);
        let kept = flags & !(S | Z | P);
        Numbers {
            steps: 56 + y.count_ones() as u16,
            ..adjusted(kept | word(&szp(al, 8)), 0, al)
        }
    }

    /// DAA goes up, DAS down.
    fn decimal(&self, direction: i64, overflow: bool) -> Numbers {
        let (low, high) = (self.low_test(), self.high_test());
        let distance = if low { 0x06 } else { 0 } + if high { 0x60 } else { 0 };
        let al = wrapped(self.al + direction * distance, 8);
        let named = [(A, low), (C, high), (O, overflow)];
        adjusted(word(&named) | word(&szp(al, 8)), self.ah as u64, al)
    }

    fn daa_overflow(&self) -> bool {
        self.in_range(if self.c { 0x1A } else { 0x7A }, 0x7F)
    }

    fn das_overflow(&self) -> bool {
        match (self.a, self.c) {
            (false, false) => self.in_range(0x9A, 0xDF),
            (true, false) => self.in_range(0x80, 0x85) || self.in_range(0xA0, 0xE5),
            (false, true) => self.in_range(0x80, 0xDF),
            (true, true) => self.in_range(0x80, 0xE5),
        }
    }

    fn in_range(&self, least: i64, most: i64) -> bool {
        (least..=most).contains(&self.al)
    }
}

/// Done, with no step counted.
fn adjusted(flags: u16, ah: u64, al: u64) -> Numbers {
    Numbers {
        status: 0,
        flags,
        steps: 0,
        r: (ah * 256 + al) as u16,
        s: 0,
    }
}
