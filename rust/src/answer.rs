use crate::flags::Flags;
use crate::raw::Numbers;
use std::error::Error;
use std::fmt;

/// What the chip gives.
#[derive(Clone, Copy, Debug, PartialEq, Eq, Hash)]
pub struct Answer {
    /// All six flags as they stand afterwards: those that the operation sets, and the others as
    /// handed in.
    pub flags: Flags,
    /// Steps of the microcode; 0 for operations that count none.
    pub steps: u16,
    /// The result, AX, the quotient, an 8-bit product or the upper half of a 16-bit one.
    pub r: u16,
    /// The remainder or the lower half of a 16-bit product; else 0.
    pub s: u16,
}

/// Why there is no answer. A request made from an [`Operation`](crate::Operation) can only be
/// refused as a divide; the others are for lines and numbers that come from elsewhere.
///
/// When the chip traps a divide it pushes its flags word, and the handler of the trap may read it. An
/// emulator puts the flags of the refusal into its register before it pushes; the word's other bits are
/// its own. No flag handed in is seen after a divide, so none has to be right:
///
/// ```
/// use hatchyarn::{Flags, Operation, Refusal};
///
/// /// What the handler finds pushed, where the divide traps.
/// fn pushed(register: u16, divide: Operation) -> Option<u16> {
///     match divide.ask(Flags::NONE) {
///         Err(Refusal::Divide { flags, .. }) => Some(register & !Flags::ALL.word() | flags.word()),
///         _ => None,
///     }
/// }
///
/// let rights = |key, number| Operation::Divide8 { dividend: key, divisor: number, signed: true, rep: false };
/// // 0007 / 00: the first compare is 00 - 00, which sets Z and P.
/// assert_eq!(pushed(0xF202, rights(0x0007, 0x00)), Some(0xF246));
/// // FF80 / 01: the last compare is 00 - 01, which sets A and P; C, which it would set too, is clear.
/// assert_eq!(pushed(0xF202, rights(0xFF80, 0x01)), Some(0xF216));
/// assert_eq!(pushed(0xF202, rights(0xFF81, 0x01)), None);
/// ```
#[derive(Clone, Copy, Debug, PartialEq, Eq, Hash)]
#[non_exhaustive]
pub enum Refusal {
    /// Status 1: the line is not 20 bytes long.
    Length,
    /// Status 2: a byte of the line is no hexadecimal digit.
    Digit,
    /// Status 3: the op is not listed.
    Operation,
    /// Status 4: the mode does not fit the op.
    Mode,
    /// Status 5: X or Y is too large, or a bit of the flags word is no flag.
    TooLarge,
    /// The chip traps: status 6, 8 or 9, as `why` says. One arm serves all three. There is no result; over
    /// [`Registers`](crate::registers::Registers) AX and DX stay as they were, the flags are stored, and the steps go
    /// into the total.
    Divide {
        /// Which of the three it is.
        why: DivideRefusal,
        /// C is clear, and A, O, S, Z and P are those of a compare, left side less right. For
        /// [`ZeroDivisor`](DivideRefusal::ZeroDivisor) and [`TooWide`](DivideRefusal::TooWide) it is
        /// the first, of the dividend's upper half with the divisor. For
        /// [`SignRange`](DivideRefusal::SignRange) it is the last, of `x / 2 % y * 2 + x % 2` with the
        /// divisor `y`: the dividend `x` without its last bit is divided, the remainder doubled, and
        /// that bit added. In a signed divide both operands are taken without their signs. S is bit 15
        /// of the difference, so it is clear at 8 bits.
        flags: Flags,
        /// The steps up to the refusal.
        steps: u16,
    },
    /// Status 7: there is no room for an answer.
    Room,
}

impl Refusal {
    /// The number that an answer line has for it.
    pub fn status(self) -> u8 {
        match self {
            Refusal::Length => 1,
            Refusal::Digit => 2,
            Refusal::Operation => 3,
            Refusal::Mode => 4,
            Refusal::TooLarge => 5,
            Refusal::Divide { why, .. } => why.status(),
            Refusal::Room => 7,
        }
    }
}

impl fmt::Display for Refusal {
    fn fmt(&self, out: &mut fmt::Formatter) -> fmt::Result {
        out.pad(match self {
            Refusal::Length => "the line is not 20 bytes long",
            Refusal::Digit => "a byte of the line is no hexadecimal digit",
            Refusal::Operation => "the op is not listed",
            Refusal::Mode => "the mode does not fit the op",
            Refusal::TooLarge => "X or Y is too large, or a bit of the flags word is no flag",
            Refusal::Divide { why, .. } => {
                return out.pad(&format!("the divide is refused: {why}"))
            }
            Refusal::Room => "there is no room for an answer of 19 bytes",
        })
    }
}

impl Error for Refusal {}

/// Why a divide is refused. N is the divisor's width, 8 or 16; a quotient's magnitude is the
/// quotient without its sign. The three are tested in this order and exclude each other. An
/// unsigned divide is never refused for its sign range, and REP changes no refusal.
///
/// It may grow, as [`Refusal`] may: who says why has a last arm, and is closed there too.
///
/// A desk divides an object's key by a community's number. One arm is closed, whatever the reason,
/// and the reason tells a number that nobody has set from a key that is too large:
///
/// ```
/// use hatchyarn::{DivideRefusal, Flags, Operation, Refusal};
///
/// fn desk(key: u16, number: u8) -> String {
///     let divide = Operation::Divide8 { dividend: key, divisor: number, signed: true, rep: false };
///     match divide.ask(Flags::NONE) {
///         Ok(answer) => format!("shelf {:02X}", answer.r),
///         Err(Refusal::Divide { why, .. }) => format!("closed{}", reason(why)),
///         Err(refusal) => format!("not asked: {refusal}"),
///     }
/// }
///
/// fn reason(why: DivideRefusal) -> &'static str {
///     match why {
///         DivideRefusal::ZeroDivisor => ": the number is not set",
///         DivideRefusal::TooWide | DivideRefusal::SignRange => ": the key is too large",
///         _ => "",
///     }
/// }
///
/// assert_eq!(desk(0x0007, 0x00), "closed: the number is not set");
/// assert_eq!(desk(0x7FFF, 0x01), "closed: the key is too large"); // 32767, above 255
/// assert_eq!(desk(0xFF80, 0x01), "closed: the key is too large"); // -128, below -127
/// assert_eq!(desk(0xFF81, 0x01), "shelf 81");
/// ```
#[derive(Clone, Copy, Debug, PartialEq, Eq, Hash)]
#[non_exhaustive]
pub enum DivideRefusal {
    /// Status 6: the divisor is 0.
    ZeroDivisor,
    /// Status 8: the quotient's magnitude is 2^N or more, too wide for N bits.
    TooWide,
    /// Status 9: signed, and the quotient's magnitude is from 2^(N-1) to 2^N - 1, so that it does
    /// not fit with its sign.
    SignRange,
}

impl DivideRefusal {
    /// The number that an answer line has for it.
    pub fn status(self) -> u8 {
        match self {
            DivideRefusal::ZeroDivisor => 6,
            DivideRefusal::TooWide => 8,
            DivideRefusal::SignRange => 9,
        }
    }
}

impl fmt::Display for DivideRefusal {
    fn fmt(&self, out: &mut fmt::Formatter) -> fmt::Result {
        out.pad(match self {
            DivideRefusal::ZeroDivisor => "the divisor is 0",
            DivideRefusal::TooWide => "the quotient needs more bits than the divisor has",
            DivideRefusal::SignRange => "the quotient does not fit with its sign",
        })
    }
}

impl Error for DivideRefusal {}

impl Numbers {
    /// The answer, or which refusal it is.
    ///
    /// ```
    /// use hatchyarn::{raw, Refusal};
    ///
    /// assert_eq!(raw::ask(0xFF, 0, 0, 0, 0).result(), Err(Refusal::Operation));
    /// ```
    pub fn result(self) -> Result<Answer, Refusal> {
        let flags = Flags::among(self.flags);
        let steps = self.steps;
        let refused = |why| Refusal::Divide { why, flags, steps };
        match self.status {
            0 => Ok(Answer {
                flags,
                steps,
                r: self.r,
                s: self.s,
            }),
            1 => Err(Refusal::Length),
            2 => Err(Refusal::Digit),
            3 => Err(Refusal::Operation),
            4 => Err(Refusal::Mode),
            5 => Err(Refusal::TooLarge),
            6 => Err(refused(DivideRefusal::ZeroDivisor)),
            7 => Err(Refusal::Room),
            8 => Err(refused(DivideRefusal::TooWide)),
            9 => Err(refused(DivideRefusal::SignRange)),
            other => unreachable!("the library has no status {other}"),
        }
    }
}
