//! A call over a register record, and what comes of one.

use crate::asked::Asked;
use crate::trap::call::{DIVIDE, WORD};
use std::fmt;

/// The op of a multiply.
pub const MULTIPLY: u8 = 0x10;

/// The op of AAD, the one adjust that takes a byte beside the record.
pub const AAD: u8 = 0x1A;

/// All adjusts.
pub const ADJUSTS: std::ops::RangeInclusive<u8> = 0x18..=0x1C;

/// What is handed in beside the record, admitted or not.
#[derive(Clone, Copy, Debug, PartialEq, Eq)]
pub struct Call {
    pub op: u8,
    pub mode: u8,
    pub y: u16,
}

impl Call {
    pub fn is_word(self) -> bool {
        self.mode & WORD != 0
    }

    /// The op is one of those that work over a record.
    pub fn is_listed(self) -> bool {
        matches!(self.op, MULTIPLY | DIVIDE) || ADJUSTS.contains(&self.op)
    }

    /// What is read from the record: AL, AX, or DX with AX below it.
    pub fn x(self, record: Record) -> u32 {
        match (self.op, self.is_word()) {
            (MULTIPLY, false) => u32::from(record.ax) % 0x100,
            (DIVIDE, true) => u32::from(record.dx) * 0x1_0000 + u32::from(record.ax),
            _ => record.ax.into(),
        }
    }

    /// The same by value.
    pub fn asked(self, record: Record) -> Asked {
        Asked {
            op: self.op,
            mode: self.mode,
            flags: record.flags,
            x: self.x(record),
            y: self.y,
        }
    }
}

impl fmt::Display for Call {
    fn fmt(&self, out: &mut fmt::Formatter) -> fmt::Result {
        let Call { op, mode, y } = self;
        write!(out, "registers, op {op:02X}, mode {mode:02X}, Y {y:04X}")
    }
}

/// The registers, the flags word, and the sum of all steps.
#[derive(Clone, Copy, Debug, Default, PartialEq, Eq)]
pub struct Record {
    pub ax: u16,
    pub dx: u16,
    pub flags: u16,
    pub total: u32,
}

impl fmt::Display for Record {
    fn fmt(&self, out: &mut fmt::Formatter) -> fmt::Result {
        let Record {
            ax,
            dx,
            flags,
            total,
        } = self;
        write!(
            out,
            "AX {ax:04X}, DX {dx:04X}, flags {flags:04X}, total {total}"
        )
    }
}

/// What a call returns, the record that it leaves, and the steps that it tells.
#[derive(Clone, Copy, Debug, PartialEq, Eq)]
pub struct Outcome {
    pub status: u8,
    pub record: Record,
    pub steps: u16,
}

impl Outcome {
    /// Of a call after which the record is as it was: statuses 3, 4, 5 and 10.
    pub fn refused(status: u8, record: Record) -> Outcome {
        Outcome {
            status,
            record,
            steps: 0,
        }
    }
}
