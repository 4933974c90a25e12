//! Packed decimal numbers: two digits a byte, the upper digit in the byte's upper half, and the lowest
//! byte first. They are added by the chip's ADC and DAA and subtracted by its SBB and DAS, byte by
//! byte; that the digits are those of the sum or the difference is proved.
//!
//! A card is stamped on day 738123, and the loan is for 28 days. Of two days the later less the earlier
//! is how many lie between:
//!
//! ```
//! use hatchyarn::packed;
//!
//! let (day, days) = ([0x23, 0x81, 0x73], [0x28, 0x00, 0x00]);
//! let mut due = [0; 3];
//! let carry = packed::add(&day, &days, false, &mut due)?;
//! assert_eq!((due, carry), ([0x51, 0x81, 0x73], false)); // day 738151
//!
//! let mut between = [0; 3];
//! let borrow = packed::subtract(&due, &day, false, &mut between)?;
//! assert_eq!((between, borrow), (days, false));
//!
//! // A borrow tells that the first of the two is the earlier.
//! assert!(packed::subtract(&day, &due, false, &mut between)?);
//! # Ok::<(), packed::Refusal>(())
//! ```
//!
//! Numbers of more than [`LONGEST`] bytes are added or subtracted in pieces, the lowest first, each with
//! the carry or borrow out of the one before it; that of the last piece is that of the whole. Where a
//! piece is refused those before it are written:
//!
//! ```
//! use hatchyarn::packed::{self, Refusal, LONGEST};
//!
//! fn add_long(x: &[u8], y: &[u8], out: &mut [u8]) -> Result<bool, Refusal> {
//!     if x.len() != y.len() {
//!         return Err(Refusal::LengthsDiffer);
//!     }
//!     if x.is_empty() {
//!         return Err(Refusal::Length);
//!     }
//!     if out.len() < x.len() {
//!         return Err(Refusal::Room);
//!     }
//!     let operands = x.chunks(LONGEST).zip(y.chunks(LONGEST));
//!     let mut pieces = operands.zip(out.chunks_mut(LONGEST));
//!     pieces.try_fold(false, |carry, ((x, y), out)| packed::add(x, y, carry, out))
//! }
//!
//! // 80 digits: 10^80 - 1 and 1 are 10^80.
//! let mut one = [0x00; 40];
//! one[0] = 0x01;
//! let mut sum = [0x55; 40];
//! assert_eq!(add_long(&[0x99; 40], &one, &mut sum), Ok(true));
//! assert_eq!(sum, [0x00; 40]);
//! ```

use crate::raw;
use std::error::Error;
use std::fmt;

/// The bytes of the longest operand, which has 64 digits.
pub const LONGEST: usize = 32;

/// Why nothing was added or subtracted, and nothing written. The four are tested in this order, and the
/// first that applies is given.
///
/// ```
/// use hatchyarn::packed;
///
/// let refusal = packed::add(&[0x1A], &[0x01], false, &mut [0; 1]).unwrap_err();
/// assert_eq!(refusal.to_string(), "a digit of an operand is over 9");
/// ```
#[derive(Clone, Copy, Debug, PartialEq, Eq, Hash)]
#[non_exhaustive]
pub enum Refusal {
    /// Status 20: the operands' lengths differ.
    LengthsDiffer,
    /// Status 21: the operands are not 1 to 32 bytes long.
    Length,
    /// Status 22: a digit of an operand is over 9.
    Digit,
    /// Status 23: the buffer for the result is shorter than the operands.
    Room,
}

impl Refusal {
    /// The number that the static library has for it.
    pub fn status(self) -> u8 {
        match self {
            Refusal::LengthsDiffer => 20,
            Refusal::Length => 21,
            Refusal::Digit => 22,
            Refusal::Room => 23,
        }
    }
}

impl fmt::Display for Refusal {
    fn fmt(&self, out: &mut fmt::Formatter) -> fmt::Result {
        out.pad(match self {
            Refusal::LengthsDiffer => "the operands' lengths differ",
            Refusal::Length => "the operands are not 1 to 32 bytes long",
            Refusal::Digit => "a digit of an operand is over 9",
            Refusal::Room => "the buffer for the result is shorter than the operands",
        })
    }
}

impl Error for Refusal {}

/// Adds two numbers of one length, 1 to [`LONGEST`] bytes, and the carry. Of L bytes each, the first L of
/// `out` become the digits of `(x + y + carry) mod 10^(2L)`, and those behind them stay. Returns the carry
/// out: whether the sum is `10^(2L)` or more.
pub fn add(x: &[u8], y: &[u8], carry: bool, out: &mut [u8]) -> Result<bool, Refusal> {
    let mut carry_out = 0;
    let status = raw::packed_add(x, y, carry, out, &mut carry_out);
    result(status, carry_out)
}

/// Subtracts `y` and the borrow from `x`, numbers of one length, 1 to [`LONGEST`] bytes. Of L bytes each,
/// the first L of `out` become the digits of `(x - y - borrow) mod 10^(2L)`, and those behind them stay.
/// Returns the borrow out: whether `x` is less than `y + borrow`.
pub fn subtract(x: &[u8], y: &[u8], borrow: bool, out: &mut [u8]) -> Result<bool, Refusal> {
    let mut borrow_out = 0;
    let status = raw::packed_subtract(x, y, borrow, out, &mut borrow_out);
    result(status, borrow_out)
}

fn result(status: u8, carry: u8) -> Result<bool, Refusal> {
    match status {
        0 => Ok(carry == 1),
        20 => Err(Refusal::LengthsDiffer),
        21 => Err(Refusal::Length),
        22 => Err(Refusal::Digit),
        23 => Err(Refusal::Room),
        other => unreachable!("the library has no status {other}"),
    }
}
