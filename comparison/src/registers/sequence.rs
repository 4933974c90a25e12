//! Many calls over one record, one after another. The port goes on with what it has left itself, the reference with
//! what it says should be there, and the steps that the port tells are added up beside both.

use super::call::{Call, Record};
use super::held::{parts, unwritten};
use super::loan::Loan;
use super::reference;
use crate::tally::Tally;
use oracle::draw::Draw;

pub struct Sequence {
    /// The port's record.
    loan: Loan,
    /// The reference's.
    pub record: Record,
    /// The total at the start, and all steps told since.
    sum: u64,
}

impl Sequence {
    pub fn over(record: Record) -> Sequence {
        Sequence {
            loan: Loan::over(record, 0),
            record,
            sum: record.total.into(),
        }
    }

    /// A program stores these registers and flags. The total stays.
    pub fn store(&mut self, stored: Record) {
        let total = self.loan.total.lent;
        self.loan.put(Record { total, ..stored }, 0);
        let total = self.record.total;
        self.record = Record { total, ..stored };
    }

    /// Holds one call to the reference and to the sum.
    pub fn hold(&mut self, tally: &mut Tally, draw: &mut Draw, call: Call) {
        self.loan.steps.lent = unwritten(draw);
        let status = (tally.registers)(call, &mut self.loan);
        self.sum += u64::from(self.loan.steps.lent);
        let expected = reference::outcome(call, self.record);
        let parts = parts(tally, call, self.record, (&self.loan, status), &expected);
        let differs = u64::from(self.loan.total.lent) != self.sum;
        let parts = [&parts[..], &[("the sum of the steps", differs)]].concat();
        tally.hold_call(&parts, || {
            format!("{call}, over {}, in a sequence", self.record)
        });
        self.record = expected.record;
    }
}
