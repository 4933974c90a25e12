use crate::answer::{Answer, Refusal};
use crate::flags::Flags;
use crate::raw;

/// Additions and subtractions of two operands. `Adc` and `Sbb` take the carry flag in.
///
/// They set C, O and A, as the ALU does, and so does NEG. P, Z and S stay as handed in; they are
/// left to the caller. No step is counted.
#[derive(Clone, Copy, Debug, PartialEq, Eq, Hash)]
pub enum Sum {
    Add = 0x00,
    Adc = 0x01,
    Sub = 0x02,
    Sbb = 0x03,
}

/// Shifts and rotates. The count runs in full, from 0 to 255: an 8088 does not mask it. `Rcl` and
/// `Rcr` take the carry flag in.
///
/// `Shr` and `Sar` set C, the others C and O, and SHL with A also A; a count of 0 clears them, but
/// `Rcl` and `Rcr` give C back. P, Z and S stay as handed in. No step is counted.
#[derive(Clone, Copy, Debug, PartialEq, Eq, Hash)]
pub enum Shift {
    Shl = 0x05,
    Shr = 0x06,
    Sar = 0x07,
    Rol = 0x08,
    Ror = 0x09,
    Rcl = 0x0A,
    Rcr = 0x0B,
    /// `Shl` that also sets the auxiliary carry.
    ShlAf = 0x0C,
}

/// Decimal adjusts of AX that take no byte.
///
/// They set all six flags. `Daa` and `Das` count no step.
#[derive(Clone, Copy, Debug, PartialEq, Eq, Hash)]
pub enum Adjust {
    Aaa = 0x18,
    Aas = 0x19,
    Daa = 0x1B,
    Das = 0x1C,
}

/// What the chip is asked to do, with its operands.
///
/// `signed` chooses the signed instruction, IMUL or IDIV. `rep` stands for a REP prefix before the
/// instruction, which makes the chip negate a product or a signed quotient.
///
/// An unsigned multiply sets C and O; a signed one and every divide, done or refused, all six flags. The
/// rest stays as handed in. Signed operands are two's complement, so -128 is `0x80`:
///
/// ```
/// use hatchyarn::{Flags, Operation};
///
/// let square = Operation::Multiply8 { x: 0x80, y: 0x80, signed: true, rep: false };
/// assert_eq!(square.ask(Flags::NONE)?.r, 0x4000);
/// # Ok::<(), hatchyarn::Refusal>(())
/// ```
#[derive(Clone, Copy, Debug, PartialEq, Eq, Hash)]
pub enum Operation {
    Sum8(Sum, u8, u8),
    Sum16(Sum, u16, u16),
    Neg8(u8),
    Neg16(u16),
    /// The value, then the count.
    Shift8(Shift, u8, u8),
    /// The value, then the count.
    Shift16(Shift, u16, u8),
    Multiply8 {
        x: u8,
        y: u8,
        signed: bool,
        rep: bool,
    },
    Multiply16 {
        x: u16,
        y: u16,
        signed: bool,
        rep: bool,
    },
    Divide8 {
        dividend: u16,
        divisor: u8,
        signed: bool,
        rep: bool,
    },
    Divide16 {
        dividend: u32,
        divisor: u16,
        signed: bool,
        rep: bool,
    },
    /// An adjust of AX; [`Adjust`] tells its flags.
    Adjust(Adjust, u16),
    /// AAD of AX by a byte, which a program's text nearly always has as 10. It sets P, Z and S; C, A
    /// and O stay as handed in.
    Aad {
        ax: u16,
        byte: u8,
    },
}

pub(crate) const MULTIPLY: u8 = 0x10;
pub(crate) const DIVIDE: u8 = 0x11;
const NEG: u8 = 0x04;
pub(crate) const AAD: u8 = 0x1A;

pub(crate) const BYTE: u8 = 0x00;
pub(crate) const WORD: u8 = 0x01;

pub(crate) fn mode(width: u8, signed: bool, rep: bool) -> u8 {
    width | (signed as u8) << 1 | (rep as u8) << 2
}

impl Operation {
    /// Op, mode, X and Y, as a request line has them.
    pub fn numbers(self) -> (u8, u8, u32, u16) {
        match self {
            Operation::Sum8(sum, x, y) => (sum as u8, BYTE, x.into(), y.into()),
            Operation::Sum16(sum, x, y) => (sum as u8, WORD, x.into(), y),
            Operation::Neg8(x) => (NEG, BYTE, x.into(), 0),
            Operation::Neg16(x) => (NEG, WORD, x.into(), 0),
            Operation::Shift8(shift, x, count) => (shift as u8, BYTE, x.into(), count.into()),
            Operation::Shift16(shift, x, count) => (shift as u8, WORD, x.into(), count.into()),
            Operation::Multiply8 { x, y, signed, rep } => {
                (MULTIPLY, mode(BYTE, signed, rep), x.into(), y.into())
            }
            Operation::Multiply16 { x, y, signed, rep } => {
                (MULTIPLY, mode(WORD, signed, rep), x.into(), y)
            }
            Operation::Divide8 {
                dividend,
                divisor,
                signed,
                rep,
            } => (
                DIVIDE,
                mode(BYTE, signed, rep),
                dividend.into(),
                divisor.into(),
            ),
            Operation::Divide16 {
                dividend,
                divisor,
                signed,
                rep,
            } => (DIVIDE, mode(WORD, signed, rep), dividend, divisor),
            Operation::Adjust(adjust, ax) => (adjust as u8, BYTE, ax.into(), 0),
            Operation::Aad { ax, byte } => (AAD, BYTE, ax.into(), byte.into()),
        }
    }

    /// Asks the chip, with the flags as they stand before.
    pub fn ask(self, flags: Flags) -> Result<Answer, Refusal> {
        let (op, mode, x, y) = self.numbers();
        raw::ask(op, mode, flags.word(), x, y).result()
    }
}
