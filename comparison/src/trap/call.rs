//! A call as a caller has it, and what comes of one.

use crate::asked::Asked;
use std::fmt;

/// The op of a divide.
pub const DIVIDE: u8 = 0x11;

/// The bits of a mode.
pub const WORD: u8 = 0x01;
pub const SIGNED: u8 = 0x02;
pub const REP: u8 = 0x04;

/// The mode and the operands, admitted or not.
#[derive(Clone, Copy, Debug, PartialEq, Eq)]
pub struct Call {
    pub mode: u8,
    pub dividend: u32,
    pub divisor: u16,
}

impl Call {
    /// The bits of the divisor; the dividend has twice as many.
    pub fn bits(self) -> u32 {
        if self.mode & WORD != 0 {
            16
        } else {
            8
        }
    }

    pub fn is_signed(self) -> bool {
        self.mode & SIGNED != 0
    }

    /// The full divide of the same, with these flags handed in.
    pub fn divide(self, flags: u16) -> Asked {
        Asked {
            op: DIVIDE,
            mode: self.mode,
            flags,
            x: self.dividend,
            y: self.divisor,
        }
    }
}

impl fmt::Display for Call {
    fn fmt(&self, out: &mut fmt::Formatter) -> fmt::Result {
        let Call {
            mode,
            dividend,
            divisor,
        } = self;
        write!(out, "mode {mode:02X}: {dividend:08X} by {divisor:04X}")
    }
}

/// What a call returns, and the byte that it writes.
#[derive(Clone, Copy, Debug, PartialEq, Eq)]
pub struct Answer {
    pub status: u8,
    pub trap: u8,
}

impl Answer {
    /// Of a call that is admitted.
    pub fn told(traps: bool) -> Answer {
        Answer {
            status: 0,
            trap: traps.into(),
        }
    }

    /// Of one that is not: whoever reads the byte alone is told to keep shut.
    pub fn refused(status: u8) -> Answer {
        Answer { status, trap: 1 }
    }

    /// What the status of the full divide says.
    pub fn of_divide(status: u8) -> Answer {
        match status {
            0 => Answer::told(false),
            6 | 8 | 9 => Answer::told(true),
            _ => Answer::refused(status),
        }
    }
}
