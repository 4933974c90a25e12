//! What a function wrote, as the numbers of an answer, so that the two sides can be compared.

use super::given::{
    Divided, Done, Flags, Halves, Outcome, Refusal, ResultC, ResultCo, ResultCoa, Results,
};
use crate::asked::Asked;
use crate::sides::{theirs, Numbers};
use oracle::Refused;

pub trait Told {
    /// Flags that the function does not name are clear. What was asked tells what a function does not
    /// write.
    fn told(self, asked: Asked) -> Numbers;
}

impl<T: Into<u16>> Told for ResultC<T> {
    fn told(self, _asked: Asked) -> Numbers {
        leaf(self.result, [self.carry, false, false])
    }
}

impl<T: Into<u16>> Told for ResultCo<T> {
    fn told(self, _asked: Asked) -> Numbers {
        leaf(self.result, [self.carry, self.overflow, false])
    }
}

impl<T: Into<u16>> Told for ResultCoa<T> {
    fn told(self, _asked: Asked) -> Numbers {
        leaf(self.result, [self.carry, self.overflow, self.aux_carry])
    }
}

impl<F: Into<u16>> Told for Done<u16, F> {
    fn told(self, _asked: Asked) -> Numbers {
        accepted(self.flags, self.steps, self.given, 0_u16)
    }
}

/// A product of 16 bits is one number of an answer, and one of 32 bits two.
impl<F: Into<u16>> Told for Done<Halves<u8>, F> {
    fn told(self, _asked: Asked) -> Numbers {
        let product = u16::from_be_bytes([self.given.upper, self.given.lower]);
        accepted(self.flags, self.steps, product, 0_u16)
    }
}

impl<F: Into<u16>> Told for Done<Halves<u16>, F> {
    fn told(self, _asked: Asked) -> Numbers {
        accepted(self.flags, self.steps, self.given.upper, self.given.lower)
    }
}

/// MartyPC's divides, which do not write why they refuse. The oracle tells it.
impl<T: Into<u16>> Told for Done<Result<(T, T), bool>, u16> {
    fn told(self, asked: Asked) -> Numbers {
        match self.given {
            Ok((quotient, remainder)) => accepted(self.flags, self.steps, quotient, remainder),
            Err(_) => refused(theirs(asked).status, self.flags, self.steps),
        }
    }
}

impl From<Refusal> for Refused {
    fn from(refusal: Refusal) -> Refused {
        match refusal {
            Refusal::ZeroDivisor => Refused::ZeroDivisor,
            Refusal::TooWide => Refused::TooWide,
            Refusal::SignRange => Refused::SignRange,
        }
    }
}

impl<T: Into<u16>> Told for Divided<T> {
    fn told(self, _asked: Asked) -> Numbers {
        match self.given {
            Outcome::Ok(Results {
                quotient,
                remainder,
            }) => accepted(self.flags, self.steps, quotient, remainder),
            Outcome::Err(why) => refused(Refused::from(why).status(), self.flags, self.steps),
        }
    }
}

fn leaf(result: impl Into<u16>, [carry, overflow, aux_carry]: [bool; 3]) -> Numbers {
    let flags = Flags {
        carry,
        overflow,
        aux_carry,
        ..Flags::from(0)
    };
    accepted(flags, 0, result, 0_u16)
}

fn accepted(flags: impl Into<u16>, steps: u16, r: impl Into<u16>, s: impl Into<u16>) -> Numbers {
    Numbers {
        status: 0,
        flags: flags.into(),
        steps,
        r: r.into(),
        s: s.into(),
    }
}

fn refused(status: u8, flags: impl Into<u16>, steps: u16) -> Numbers {
    Numbers {
        status,
        ..accepted(flags, steps, 0_u16, 0_u16)
    }
}
