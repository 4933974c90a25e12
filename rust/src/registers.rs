//! Registers that remember their steps: AX, DX, the flags, and a running total.
//!
//! A session works over one record, operation after operation, and its log shows the steps of each and
//! the total. The total is always the sum of the steps of the operations done since the record was
//! fresh, refused divides among them, so nobody adds them up. A program may store what it likes in
//! [`ax`](Registers::ax), [`dx`](Registers::dx) and [`flags`](Registers::flags) between two operations;
//! the total is the crate's own.
//!
//! Two keys are divided by a number, signed. The chip refuses the second, and its steps count too:
//!
//! ```
//! use hatchyarn::registers::Registers;
//! use hatchyarn::Flags;
//!
//! let mut session = Registers::new(0, 0, Flags::NONE);
//! let mut log = Vec::new();
//! for key in [0xFF81, 0xFF80] {
//!     session.ax = key;
//!     log.push(match session.div8(0x01, true, false) {
//!         Ok(steps) => format!("done, {steps} steps, total {}", session.total()),
//!         Err(why) => format!("{why}, {} steps, total {}", why.steps(), session.total()),
//!     });
//! }
//! assert_eq!(log, [
//!     "done, 111 steps, total 111",
//!     "the divide is refused: the quotient does not fit with its sign, 95 steps, total 206",
//! ]);
//!
//! // The refused divide left AX and DX, and the flags are those that the handler of the trap finds.
//! assert_eq!((session.ax, session.dx), (0xFF80, 0x0000));
//! assert_eq!(session.flags, Flags::AUX_CARRY | Flags::PARITY);
//! ```
//!
//! A 16-bit multiply leaves its product where a 16-bit divide reads its dividend:
//!
//! ```
//! use hatchyarn::registers::Registers;
//! use hatchyarn::Flags;
//!
//! let mut session = Registers::new(0x1234, 0, Flags::NONE);
//! session.mul16(0x5678, false, false)?;
//! assert_eq!((session.dx, session.ax), (0x0626, 0x0060));
//! session.div16(0x5678, false, false)?;
//! assert_eq!((session.ax, session.dx), (0x1234, 0x0000));
//! # Ok::<(), hatchyarn::registers::Refusal>(())
//! ```

use crate::answer::DivideRefusal;
use crate::flags::Flags;
use crate::operation::{mode, Adjust, AAD, BYTE, DIVIDE, MULTIPLY, WORD};
use crate::raw::{self, RegisterRecord, Stepped};
use std::error::Error;
use std::fmt;

/// AX, DX, the flags, and the sum of the steps since the record was fresh.
///
/// Each operation gives its steps, which are in the total then, or a [`Refusal`]. `signed` and `rep` are
/// as for [`Operation`](crate::Operation), and so are results, flags and steps. It is no `Copy`, since steps that
/// are counted on a copy are missing in the total of the other.
#[derive(Clone, Debug, PartialEq, Eq, Hash)]
pub struct Registers {
    /// AL is its lower byte, and AH its upper.
    pub ax: u16,
    /// The upper half of a 32-bit product or dividend, and the remainder of a 16-bit divide. No other operation
    /// reads or changes it.
    pub dx: u16,
    pub flags: Flags,
    total: u32,
}

impl Registers {
    /// A fresh record, whose total is 0.
    pub const fn new(ax: u16, dx: u16, flags: Flags) -> Registers {
        Registers::resumed(ax, dx, flags, 0)
    }

    /// A record that was saved, with its [`total`](Registers::total).
    ///
    /// ```
    /// use hatchyarn::registers::Registers;
    /// use hatchyarn::Flags;
    ///
    /// let mut saved = Registers::new(0x0007, 0, Flags::NONE);
    /// saved.div8(0x02, false, false)?;
    /// let mut again = Registers::resumed(saved.ax, saved.dx, saved.flags, saved.total());
    /// assert_eq!(again, saved);
    /// assert_eq!(again.total(), 81);
    /// # Ok::<(), hatchyarn::registers::Refusal>(())
    /// ```
    pub const fn resumed(ax: u16, dx: u16, flags: Flags, total: u32) -> Registers {
        Registers {
            ax,
            dx,
            flags,
            total,
        }
    }

    /// The sum of the steps of all operations since the record was fresh: what a log shows. A divide that
    /// the chip refused is among them, and an operation with [`Refusal::TotalFull`] is not.
    pub const fn total(&self) -> u32 {
        self.total
    }

    /// Adjusts AX after an addition of digits, one a byte.
    pub fn aaa(&mut self) -> Result<u16, Refusal> {
        self.operate(Adjust::Aaa as u8, BYTE, 0)
    }

    /// Adjusts AX after a subtraction of digits, one a byte.
    pub fn aas(&mut self) -> Result<u16, Refusal> {
        self.operate(Adjust::Aas as u8, BYTE, 0)
    }

    /// Makes AL of AL and AH times the byte, and AH 0. A program's text nearly always has 10 for the byte.
    pub fn aad(&mut self, byte: u8) -> Result<u16, Refusal> {
        self.operate(AAD, BYTE, byte.into())
    }

    /// Adjusts AL after an addition of packed digits. It takes 0 steps, so that it is always done.
    pub fn daa(&mut self) -> Result<u16, Refusal> {
        self.operate(Adjust::Daa as u8, BYTE, 0)
    }

    /// Adjusts AL after a subtraction of packed digits. It takes 0 steps, so that it is always done.
    pub fn das(&mut self) -> Result<u16, Refusal> {
        self.operate(Adjust::Das as u8, BYTE, 0)
    }

    /// AL times the factor. AX takes the product.
    pub fn mul8(&mut self, factor: u8, signed: bool, rep: bool) -> Result<u16, Refusal> {
        self.operate(MULTIPLY, mode(BYTE, signed, rep), factor.into())
    }

    /// AX times the factor. DX takes the product's upper half, and AX its lower.
    pub fn mul16(&mut self, factor: u16, signed: bool, rep: bool) -> Result<u16, Refusal> {
        self.operate(MULTIPLY, mode(WORD, signed, rep), factor)
    }

    /// AX by the divisor. AL takes the quotient, and AH the remainder.
    pub fn div8(&mut self, divisor: u8, signed: bool, rep: bool) -> Result<u16, Refusal> {
        self.operate(DIVIDE, mode(BYTE, signed, rep), divisor.into())
    }

    /// DX with AX below it, a number of 32 bits, by the divisor. AX takes the quotient, and DX the
    /// remainder.
    pub fn div16(&mut self, divisor: u16, signed: bool, rep: bool) -> Result<u16, Refusal> {
        self.operate(DIVIDE, mode(WORD, signed, rep), divisor)
    }

    fn operate(&mut self, op: u8, mode: u8, y: u16) -> Result<u16, Refusal> {
        let mut record = RegisterRecord {
            ax: self.ax,
            dx: self.dx,
            flags: self.flags.word(),
            total: self.total,
        };
        let told = raw::registers(op, mode, y, &mut record);
        // After a refusal the library left in the record what is to stay.
        *self = Registers {
            ax: record.ax,
            dx: record.dx,
            flags: Flags::among(record.flags),
            total: record.total,
        };
        result(told)
    }
}

/// Why an operation was not done.
///
/// Where a refused divide means closed, both cases do: after [`TotalFull`](Refusal::TotalFull) it is not
/// known whether the chip would refuse.
///
/// ```
/// use hatchyarn::registers::{Refusal, Registers};
/// use hatchyarn::Flags;
///
/// let mut session = Registers::resumed(0x0007, 0, Flags::NONE, 4_294_967_215);
/// let mut noted = Vec::new();
/// let refusal = session.div8(0x02, false, false).unwrap_err(); // 81 steps, one too many
/// assert_eq!(refusal, Refusal::TotalFull);
/// assert_eq!(
///     refusal.to_string(),
///     "the total of steps is full: note it, start a fresh record, and do the operation again; nothing was changed",
/// );
///
/// noted.push(session.total());
/// session = Registers::new(session.ax, session.dx, session.flags);
/// assert_eq!(session.div8(0x02, false, false), Ok(81));
/// assert_eq!((noted, session.total()), (vec![4_294_967_215], 81));
/// ```
#[derive(Clone, Copy, Debug, PartialEq, Eq, Hash)]
#[non_exhaustive]
pub enum Refusal {
    /// The chip traps: status 6, 8 or 9, as `why` says. AX and DX stay as they were, and the record's flags are
    /// those that the handler of the trap finds, as in [`Refusal::Divide`](crate::Refusal::Divide) of a request.
    Divide {
        /// Which of the three it is.
        why: DivideRefusal,
        /// The steps up to the refusal. They are in the total.
        steps: u16,
    },
    /// Status 10: the total would pass 4,294,967,295. Nothing was changed. Note the total, start a fresh
    /// record with the same registers, and do the operation again.
    TotalFull,
}

impl Refusal {
    /// The number that the static library has for it.
    pub fn status(self) -> u8 {
        match self {
            Refusal::Divide { why, .. } => why.status(),
            Refusal::TotalFull => 10,
        }
    }

    /// The steps that went into the total: those of a refused divide, and else 0.
    pub fn steps(self) -> u16 {
        if let Refusal::Divide { steps, .. } = self {
            steps
        } else {
            0
        }
    }
}

impl fmt::Display for Refusal {
    fn fmt(&self, out: &mut fmt::Formatter) -> fmt::Result {
        out.pad(match self {
            Refusal::Divide { why, .. } => {
                return out.pad(&format!("the divide is refused: {why}"))
            }
            Refusal::TotalFull => {
                "the total of steps is full: note it, start a fresh record, and do the operation again; nothing was changed"
            }
        })
    }
}

impl Error for Refusal {}

/// 3, 4 and 5 are of operations that no method asks for.
fn result(told: Stepped) -> Result<u16, Refusal> {
    let steps = told.steps;
    let refused = |why| Refusal::Divide { why, steps };
    match told.status {
        0 => Ok(steps),
        6 => Err(refused(DivideRefusal::ZeroDivisor)),
        8 => Err(refused(DivideRefusal::TooWide)),
        9 => Err(refused(DivideRefusal::SignRange)),
        10 => Err(Refusal::TotalFull),
        other => unreachable!("the library has no status {other} here"),
    }
}
