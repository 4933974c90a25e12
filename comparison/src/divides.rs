//! How the divides among the requests came out, to show that a draw does not spend itself on refusals.

use crate::asked::Asked;
use crate::sides::Numbers;
use oracle::Refused;
use std::fmt;

#[derive(Clone, Copy, Debug, Default, PartialEq, Eq)]
pub struct Divides {
    pub accepted: u64,
    /// Those accepted whose quotient's magnitude is one of the three lowest or the two highest.
    pub at_end: u64,
    /// Those refused, by the place of the reason in `Refused::ALL`.
    refused: [u64; Refused::ALL.len()],
}

impl Divides {
    /// Counts a request if it is an admitted divide.
    #[inline]
    pub fn count(&mut self, asked: Asked, given: &Numbers) {
        if asked.op != 0x11 {
            return;
        }
        if given.status == 0 {
            self.accepted += 1;
            self.at_end += u64::from(is_at_end(asked.mode, given.r));
        }
        for (why, count) in Refused::ALL.iter().zip(&mut self.refused) {
            *count += u64::from(given.status == why.status());
        }
    }

    pub fn all(&self) -> u64 {
        self.accepted + self.refused.iter().sum::<u64>()
    }

    /// Each refusal, and how many divides were refused so.
    pub fn refused(&self) -> impl Iterator<Item = (Refused, u64)> {
        Refused::ALL.into_iter().zip(self.refused)
    }

    pub fn add(&mut self, other: Divides) {
        self.accepted += other.accepted;
        self.at_end += other.at_end;
        for (sum, part) in self.refused.iter_mut().zip(other.refused) {
            *sum += part;
        }
    }
}

fn is_at_end(mode: u8, quotient: u16) -> bool {
    let range: u32 = if mode & 1 != 0 { 0x1_0000 } else { 0x100 };
    let quotient = u32::from(quotient);
    let (magnitude, past) = match mode & 2 != 0 {
        true => (quotient.min(range - quotient), range / 2),
        false => (quotient, range),
    };
    magnitude <= 2 || magnitude + 2 >= past
}

impl fmt::Display for Divides {
    fn fmt(&self, out: &mut fmt::Formatter) -> fmt::Result {
        let all = self.all().max(1) as f64;
        let share = |part: u64| part as f64 * 100.0 / all;
        write!(
            out,
            "divides: {:.1} % accepted, {:.1} % with a quotient at an end of its range; refused:",
            share(self.accepted),
            share(self.at_end)
        )?;
        let mut before = " ";
        for (why, count) in self.refused() {
            write!(out, "{before}{:.1} % {why}", share(count))?;
            before = ", ";
        }
        Ok(())
    }
}
