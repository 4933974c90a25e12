//! The five numbers that a call is lent, and whom they are lent to.

use super::call::{Call, Outcome, Record};
use super::linked;

/// A side as a value, so that a test can put a wrong one in place of the port. It works over the record that it
/// is lent, writes the steps, and returns the status.
pub type Side = fn(Call, &mut Loan) -> u8;

/// One number inside guards that nobody may write. They are arrays, and the same each time, since numbers are
/// lent more than a hundred million times.
#[repr(C)]
#[derive(Clone, Copy, Debug, PartialEq, Eq)]
pub struct Guarded<T> {
    pub before: [T; 4],
    pub lent: T,
    pub after: [T; 4],
}

/// Other bits in every place, high and low, so that a number shows that is written by half.
const fn word(lent: u16) -> Guarded<u16> {
    Guarded {
        before: [0xA5C3, 0x5A3E, 0xC917, 0x36E8],
        lent,
        after: [0x6D42, 0x92BD, 0x71FA, 0x8E05],
    }
}

const fn double(lent: u32) -> Guarded<u32> {
    Guarded {
        before: [0xA5C3_1F72, 0x5A3E_E08D, 0xC917_4B26, 0x36E8_B4D9],
        lent,
        after: [0x6D42_983C, 0x92BD_67C3, 0x71FA_0E95, 0x8E05_F16A],
    }
}

/// The record, and the number for the steps.
#[repr(C)]
#[derive(Clone, Copy, Debug, PartialEq, Eq)]
pub struct Loan {
    pub ax: Guarded<u16>,
    pub dx: Guarded<u16>,
    pub flags: Guarded<u16>,
    pub total: Guarded<u32>,
    pub steps: Guarded<u16>,
}

impl Loan {
    /// With these in the numbers.
    pub fn over(record: Record, steps: u16) -> Loan {
        Loan {
            ax: word(record.ax),
            dx: word(record.dx),
            flags: word(record.flags),
            total: double(record.total),
            steps: word(steps),
        }
    }

    pub fn record(&self) -> Record {
        Record {
            ax: self.ax.lent,
            dx: self.dx.lent,
            flags: self.flags.lent,
            total: self.total.lent,
        }
    }

    /// What came of the call that returned this status.
    pub fn outcome(&self, status: u8) -> Outcome {
        Outcome {
            status,
            record: self.record(),
            steps: self.steps.lent,
        }
    }

    /// Whether a number beside those that are lent was written.
    pub fn is_written_beside(&self) -> bool {
        *self != Loan::over(self.record(), self.steps.lent)
    }

    /// Changes the numbers that are lent, and no guard.
    pub fn put(&mut self, record: Record, steps: u16) {
        self.ax.lent = record.ax;
        self.dx.lent = record.dx;
        self.flags.lent = record.flags;
        self.total.lent = record.total;
        self.steps.lent = steps;
    }
}

/// The port, through the static library. The pointers lead into the loan, so that a write beside a number shows.
pub fn ours(call: Call, loan: &mut Loan) -> u8 {
    linked::registers(
        call,
        &mut loan.ax.lent,
        &mut loan.dx.lent,
        &mut loan.flags.lent,
        &mut loan.total.lent,
        &mut loan.steps.lent,
    )
}
