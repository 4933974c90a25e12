//! What equal quotients say of the steps: accepted unsigned divides of one width with equal quotients take equal
//! steps exactly when they have equally many ones by a bit shifted out, and none of these has a divisor up to
//! 2^(N-1).

use super::held::{ask, flags, unwritten};
use crate::tally::Tally;
use crate::trap::call::Call;
use oracle::draw::Draw;

/// What was met of one quotient: ones by a bit shifted out, with the steps of the full divide.
#[derive(Debug, Default)]
pub struct Law {
    met: Vec<(u16, u16)>,
}

impl Law {
    /// Holds a divide with this quotient, which is accepted and unsigned, to all of those before it.
    pub fn hold(&mut self, tally: &mut Tally, draw: &mut Draw, call: Call) {
        let (given, beside) = ask(tally, unwritten(draw), call);
        let steps = (tally.ours)(call.divide(flags(draw))).steps;
        let is_small = u32::from(call.divisor) <= 1 << (call.bits() - 1);
        let parts = [
            ("status", given.status != 0),
            (
                "ones by a bit shifted out by a small divisor",
                is_small && given.shifted_out != 0,
            ),
            (
                "steps and ones by a bit shifted out",
                self.is_broken(given.shifted_out, steps),
            ),
            ("numbers beside", beside),
        ];
        tally.hold_call(&parts, || format!("roads, equal quotients, {call}"));
    }

    /// Whether a divide before has the same of one and not of the other.
    fn is_broken(&mut self, shifted_out: u16, steps: u16) -> bool {
        let is_at_odds = |met: &(u16, u16)| (met.0 == shifted_out) != (met.1 == steps);
        let is_broken = self.met.iter().any(is_at_odds);
        if !self.met.contains(&(shifted_out, steps)) {
            self.met.push((shifted_out, steps));
        }
        is_broken
    }
}
