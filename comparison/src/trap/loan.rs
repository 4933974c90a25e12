//! The byte that a call is lent, and whom it is lent to.

use super::call::Call;
use super::linked;

/// A function as the library has it.
pub type Function = fn(u8, u32, u16, &mut u8) -> u8;

/// A side as a value, so that a test can put a wrong one in place of the port. It answers a call with
/// what it is lent, and returns the status.
pub type Side = fn(Call, &mut Loan) -> u8;

/// Bytes on either side of the one that is lent.
const GUARD: usize = 16;

/// What the guards hold: other bytes in every place, and none that a call writes.
const GUARDS: [u8; 2 * GUARD + 1] = guards();

const fn guards() -> [u8; 2 * GUARD + 1] {
    let mut guards = [0; 2 * GUARD + 1];
    let mut place = 0;
    while place < guards.len() {
        guards[place] = 0x35 + 5 * place as u8;
        place += 1;
    }
    guards
}

/// One byte inside guards that nobody may write. It is an array, and its guards are worked out beforehand, since
/// it is lent more than a hundred million times.
#[derive(Clone, Copy, Debug, PartialEq, Eq)]
pub struct Loan {
    pub whole: [u8; 2 * GUARD + 1],
}

impl Loan {
    /// Where the byte stands.
    pub const PLACE: usize = GUARD;

    /// With this in the byte.
    pub fn over(before: u8) -> Loan {
        let mut loan = Loan { whole: GUARDS };
        *loan.trap() = before;
        loan
    }

    pub fn trap(&mut self) -> &mut u8 {
        &mut self.whole[Loan::PLACE]
    }

    pub fn call(&mut self, call: Call, function: Function) -> u8 {
        function(call.mode, call.dividend, call.divisor, self.trap())
    }
}

/// The port, through the static library. The pointer leads into the loan, so that a write beside the byte shows.
pub fn ours(call: Call, loan: &mut Loan) -> u8 {
    loan.call(call, linked::would_trap)
}
