//! The two numbers that a call is lent, and whom they are lent to.

use super::answer::Answer;
use super::linked;
use crate::trap::call::Call;

/// A function as the library has it.
pub type Function = fn(u8, u32, u16, &mut [u16; 2]) -> u8;

/// A side as a value, so that a test can put a wrong one in place of the port. It answers a call with
/// what it is lent, and returns the status.
pub type Side = fn(Call, &mut Loan) -> u8;

/// Two numbers inside guards that nobody may write. They are arrays, and the same each time, since numbers are
/// lent more than a hundred million times.
#[repr(C)]
#[derive(Clone, Copy, Debug, PartialEq, Eq)]
pub struct Loan {
    pub before: [u16; 8],
    pub roads: [u16; 2],
    pub after: [u16; 8],
}

impl Loan {
    /// With these in the two numbers. No guard is a number that a call writes, in either half, so that one written by
    /// half shows too.
    pub const fn over(roads: [u16; 2]) -> Loan {
        Loan {
            before: [
                0xA5C3, 0x5A3E, 0xC917, 0x36E8, 0x1F72, 0xE08D, 0x4B26, 0xB4D9,
            ],
            roads,
            after: [
                0x6D42, 0x92BD, 0x71FA, 0x8E5F, 0x983C, 0x67C3, 0x2E95, 0xD16A,
            ],
        }
    }

    /// What came of the call that returned this status.
    pub fn answer(&self, status: u8) -> Answer {
        Answer::new(status, self.roads)
    }

    /// Whether a number beside those that are lent was written.
    pub fn is_written_beside(&self) -> bool {
        *self != Loan::over(self.roads)
    }

    pub fn call(&mut self, call: Call, function: Function) -> u8 {
        function(call.mode, call.dividend, call.divisor, &mut self.roads)
    }
}

/// The port, through the static library. The pointer leads into the loan, so that a write beside the numbers
/// shows.
pub fn ours(call: Call, loan: &mut Loan) -> u8 {
    loan.call(call, linked::roads)
}
