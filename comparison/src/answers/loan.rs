//! All that a call is lent, and whom it is lent to.

use super::call::Call;
use super::reference::Record;
use crate::lent::Lent;
use hatchyarn::raw;

/// The two functions as the library has them: of one line, and of the next line of a text.
pub type Read = fn(&[u8], &mut Record) -> u8;
pub type Next = fn(&[u8], &mut usize, &mut Record, &mut usize) -> u8;

/// A side as a value, so that a test can put a wrong one in place of the port. It answers a call with
/// what it is lent, and returns the status.
pub type Side = fn(Call, &mut Loan) -> u8;

/// What is not written keeps its pattern, which is no record and no place.
#[derive(Clone, Debug, PartialEq, Eq)]
pub struct Loan {
    pub text: Lent,
    /// Five numbers.
    pub record: Lent<u16>,
    /// One number each. A call for one line is given neither, and has to leave them.
    pub place: Lent<usize>,
    pub start: Lent<usize>,
}

impl Loan {
    /// Behind the text stands a line feed, which is none of it.
    pub fn to(call: Call) -> Loan {
        let mut text = Lent::new(call.text().len()).with(call.text());
        text.whole[text.room.end] = b'\n';
        let place = Lent::new(1);
        Loan {
            text,
            record: Lent::new(5),
            place: match call {
                Call::Read(_) => place,
                Call::Next(_, from) => place.with(&[from]),
            },
            start: Lent::new(1),
        }
    }

    /// Calls the function that the call is for.
    pub fn call(&mut self, call: Call, (read, next): (Read, Next)) -> u8 {
        let text = self.text.bytes();
        let record = self.record.cells();
        let record = record.try_into().expect("five numbers are lent");
        match call {
            Call::Read(_) => read(text, record),
            Call::Next(..) => {
                let place = &mut self.place.cells()[0];
                let start = &mut self.start.cells()[0];
                next(text, place, record, start)
            }
        }
    }
}

/// The port, through the static library.
pub fn ours(call: Call, loan: &mut Loan) -> u8 {
    loan.call(call, (raw::read_answer, raw::next_answer))
}
