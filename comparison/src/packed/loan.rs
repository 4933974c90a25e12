//! All that a call is lent, and whom it is lent to.

use super::call::{Call, Operation};
use crate::lent::Lent;
use hatchyarn::raw;

/// A function as the library has it.
pub type Function = fn(&[u8], &[u8], bool, &mut [u8], &mut u8) -> u8;

/// A side as a value, so that a test can put a wrong one in place of the port. It answers a call with
/// what it is lent, and returns the status.
pub type Side = fn(Call, &mut Loan) -> u8;

/// The operands, the room for the result, and the byte for the carry.
#[derive(Clone, Debug, PartialEq, Eq)]
pub struct Loan {
    pub x: Lent,
    pub y: Lent,
    pub out: Lent,
    /// One byte. It starts as neither 0 nor 1, so that it shows whether it was written.
    pub carry: Lent,
}

impl Loan {
    pub fn to(call: Call) -> Loan {
        let operand = |bytes: &[u8]| Lent::new(bytes.len()).with(bytes);
        Loan {
            x: operand(call.x),
            y: operand(call.y),
            out: Lent::new(call.room),
            carry: Lent::new(1),
        }
    }

    /// Calls the function that the call is for.
    pub fn call(&mut self, call: Call, [add, subtract]: [Function; 2]) -> u8 {
        let function = match call.operation {
            Operation::Add => add,
            Operation::Subtract => subtract,
        };
        let carry = &mut self.carry.bytes()[0];
        function(
            self.x.bytes(),
            self.y.bytes(),
            call.carry,
            self.out.bytes(),
            carry,
        )
    }
}

/// The port, through the static library.
pub fn ours(call: Call, loan: &mut Loan) -> u8 {
    loan.call(call, [raw::packed_add, raw::packed_subtract])
}
