use crate::answer::DivideRefusal;
use crate::operation::{mode, BYTE, WORD};
use crate::raw::{self, Tallies};
use std::fmt;

/// Which road each one of a divide's quotient came by: why two divides with one quotient take different steps.
///
/// A tester finds that 00FF / FF takes 80 steps and 0100 / C8 takes 79, though both quotients are 1. The two ones
/// came by different roads:
///
/// ```
/// use hatchyarn::{Flags, Operation, Roads};
/// use std::error::Error;
///
/// fn explained(dividend: u16, divisor: u8) -> Result<String, Box<dyn Error>> {
///     let divide = Operation::Divide8 { dividend, divisor, signed: false, rep: false };
///     let steps = divide.ask(Flags::NONE)?.steps;
///     Ok(format!("{steps} steps: {}", Roads::of_divide8(dividend, divisor, false)?))
/// }
///
/// assert_eq!(explained(0x00FF, 0xFF)?, "80 steps: 0 ones by a bit shifted out, 1 by no borrow");
/// assert_eq!(explained(0x0100, 0xC8)?, "79 steps: 1 one by a bit shifted out, 0 by no borrow");
/// # Ok::<(), Box<dyn Error>>(())
/// ```
///
/// The chip divides bit by bit, and takes both operands without their signs where the divide is signed. N is the
/// divisor's width, 8 or 16, and there are N rounds. Each shifts what is left so far to the left by one, takes in the
/// dividend's next bit, and goes one of three roads:
///
/// | what has been shifted | the road | the quotient's bit | the round's steps |
/// |---|---|---|---|
/// | is 2^N or more | a bit shifted out | 1, and no compare is made | 7 |
/// | else, is at least the divisor | no borrow | 1 | 8 |
/// | else | borrow | 0 | 7 |
///
/// So a divide that is done takes these steps, and 2 more if its quotient is odd:
///
/// | divide | steps |
/// |---|---|
/// | unsigned | 13 + 8N, and 1 for each one by no borrow |
/// | signed | 25 + 8N, and 1 for each one by no borrow; 7 for a dividend below 0, else 3; 5 for a divisor below 0, else 6 |
///
/// No bit is shifted out where the divisor, without its sign if the divide is signed, is at most 2^(N-1), and so in no
/// signed divide. Unsigned divides of one width with one quotient take equal steps exactly where equally many of their
/// ones came by a bit shifted out.
///
/// REP and the flags are not asked for, since they change nothing. A divide that the chip refuses has no roads, and
/// the refusal prints in words:
///
/// ```
/// use hatchyarn::{DivideRefusal, Roads};
///
/// let refusal = Roads::of_divide8(0x0007, 0x00, false).unwrap_err();
/// assert_eq!(refusal, DivideRefusal::ZeroDivisor);
/// assert_eq!(refusal.to_string(), "the divisor is 0");
/// assert_eq!(Roads::of_divide8(0xFF80, 0x01, true), Err(DivideRefusal::SignRange));
/// ```
#[derive(Clone, Copy, Debug, PartialEq, Eq, Hash)]
pub struct Roads {
    /// How many ones came by a bit shifted out. Of a signed divide it is 0.
    pub shifted_out: u16,
    /// How many came by no borrow. Each takes one step more.
    pub no_borrow: u16,
}

impl Roads {
    /// The roads of a divide at 8 bits.
    pub fn of_divide8(dividend: u16, divisor: u8, signed: bool) -> Result<Roads, DivideRefusal> {
        let mode = mode(BYTE, signed, false);
        result(raw::roads(mode, dividend.into(), divisor.into()))
    }

    /// The roads of a divide at 16 bits.
    ///
    /// ```
    /// use hatchyarn::Roads;
    ///
    /// let roads = Roads::of_divide16(0x1234_5678, 0xABCD, false)?;
    /// assert_eq!((roads.shifted_out, roads.no_borrow), (2, 3));
    /// # Ok::<(), hatchyarn::DivideRefusal>(())
    /// ```
    pub fn of_divide16(dividend: u32, divisor: u16, signed: bool) -> Result<Roads, DivideRefusal> {
        let mode = mode(WORD, signed, false);
        result(raw::roads(mode, dividend, divisor))
    }

    /// Both together: how many ones the quotient has in binary, without its sign where the divide is signed.
    ///
    /// ```
    /// use hatchyarn::Roads;
    ///
    /// let roads = Roads::of_divide8(0x1234, 0x9A, false)?; // the quotient is 1E
    /// assert_eq!(roads.ones(), 0x1E_u8.count_ones());
    /// # Ok::<(), hatchyarn::DivideRefusal>(())
    /// ```
    pub fn ones(self) -> u32 {
        u32::from(self.shifted_out) + u32::from(self.no_borrow)
    }
}

impl fmt::Display for Roads {
    fn fmt(&self, out: &mut fmt::Formatter) -> fmt::Result {
        let Roads {
            shifted_out,
            no_borrow,
        } = self;
        let ones = if *shifted_out == 1 { "one" } else { "ones" };
        out.pad(&format!(
            "{shifted_out} {ones} by a bit shifted out, {no_borrow} by no borrow"
        ))
    }
}

/// 4 and 5 are of divides that neither function asks for.
fn result(told: Tallies) -> Result<Roads, DivideRefusal> {
    match told.status {
        0 => Ok(Roads {
            shifted_out: told.shifted_out,
            no_borrow: told.no_borrow,
        }),
        6 => Err(DivideRefusal::ZeroDivisor),
        8 => Err(DivideRefusal::TooWide),
        9 => Err(DivideRefusal::SignRange),
        other => unreachable!("the library has no status {other} here"),
    }
}
