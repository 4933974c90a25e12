//! What may be asked: the operations, and the one form of a request.
//!
//! A [`Request`] can only be made through the checks here. So whatever holds
//! one may run it without looking again.

use crate::hex;
use std::fmt;

/// The digits of a request line, without its line feed.
pub const REQUEST_DIGITS: usize = 20;

/// All flags a flags word may hold.
pub const ALL_FLAGS: u16 = 0x08D5;

const SIXTEEN: u8 = 0x01;
const SIGNED: u8 = 0x02;
const REP: u8 = 0x04;
const MULTIPLY: u8 = 0x10;
const DIVIDE: u8 = 0x11;

/// Why a line is not admitted. The numbers are the statuses of the scope.
#[derive(Clone, Copy, Debug, PartialEq, Eq)]
#[repr(u8)]
pub enum Fault {
    Length = 1,
    Digit = 2,
    Op = 3,
    Mode = 4,
    Range = 5,
}

impl Fault {
    pub fn status(self) -> u8 {
        self as u8
    }
}

impl fmt::Display for Fault {
    fn fmt(&self, out: &mut fmt::Formatter) -> fmt::Result {
        let rule = match self {
            Fault::Length => "the line is not 20 bytes",
            Fault::Digit => "a byte is no hexadecimal digit",
            Fault::Op => "the op is not listed",
            Fault::Mode => "the mode does not fit the op",
            Fault::Range => "X or Y is too large, or a flag is outside 08D5",
        };
        write!(out, "{rule} (status {})", self.status())
    }
}

impl std::error::Error for Fault {}

#[derive(Clone, Copy, Debug, PartialEq, Eq)]
pub enum Width {
    Byte,
    Word,
}

impl Width {
    pub fn bits(self) -> u32 {
        match self {
            Width::Byte => 8,
            Width::Word => 16,
        }
    }

    /// The largest number of this width.
    pub fn largest(self) -> u32 {
        (1 << self.bits()) - 1
    }

    fn of(mode: u8) -> Width {
        if mode & SIXTEEN != 0 {
            Width::Word
        } else {
            Width::Byte
        }
    }

    fn code(self) -> u8 {
        match self {
            Width::Byte => 0,
            Width::Word => SIXTEEN,
        }
    }
}

/// The operations of `alu.rs`. The numbers are the ops.
#[derive(Clone, Copy, Debug, PartialEq, Eq)]
#[repr(u8)]
pub enum Alu {
    Add,
    Adc,
    Sub,
    Sbb,
    Neg,
    Shl,
    Shr,
    Sar,
    Rol,
    Ror,
    Rcl,
    Rcr,
    ShlAf,
}

const ALU: [Alu; 13] = [
    Alu::Add,
    Alu::Adc,
    Alu::Sub,
    Alu::Sbb,
    Alu::Neg,
    Alu::Shl,
    Alu::Shr,
    Alu::Sar,
    Alu::Rol,
    Alu::Ror,
    Alu::Rcl,
    Alu::Rcr,
    Alu::ShlAf,
];

impl Alu {
    /// Y is a count, and not an operand of the width.
    pub fn counts(self) -> bool {
        self as u8 >= Alu::Shl as u8
    }
}

/// The operations of `bcd.rs`. The numbers are the ops.
#[derive(Clone, Copy, Debug, PartialEq, Eq)]
#[repr(u8)]
pub enum Decimal {
    Aaa = 0x18,
    Aas,
    Aad,
    Daa,
    Das,
}

const DECIMAL: [Decimal; 5] = [
    Decimal::Aaa,
    Decimal::Aas,
    Decimal::Aad,
    Decimal::Daa,
    Decimal::Das,
];

/// How a multiply or divide reads its operands.
#[derive(Clone, Copy, Debug, PartialEq, Eq)]
pub struct Mode {
    pub width: Width,
    pub signed: bool,
    pub rep: bool,
}

/// An op with its mode. A mode that the op does not allow cannot be written.
#[derive(Clone, Copy, Debug, PartialEq, Eq)]
pub enum Operation {
    Alu(Alu, Width),
    Multiply(Mode),
    Divide(Mode),
    Decimal(Decimal),
}

impl Operation {
    /// Reads the op and mode of a line.
    pub fn decode(op: u8, mode: u8) -> Result<Operation, Fault> {
        let width = Width::of(mode);
        let full = Mode {
            width,
            signed: mode & SIGNED != 0,
            rep: mode & REP != 0,
        };
        let (operation, allowed) = match op {
            0x00..=0x0C => (Operation::Alu(ALU[usize::from(op)], width), SIXTEEN),
            MULTIPLY => (Operation::Multiply(full), SIXTEEN | SIGNED | REP),
            DIVIDE => (Operation::Divide(full), SIXTEEN | SIGNED | REP),
            0x18..=0x1C => (Operation::Decimal(DECIMAL[usize::from(op - 0x18)]), 0),
            _ => return Err(Fault::Op),
        };
        if mode & !allowed != 0 {
            return Err(Fault::Mode);
        }
        Ok(operation)
    }

    /// The op and mode of a line.
    pub fn code(self) -> (u8, u8) {
        let bits = |mode: Mode| {
            let signed = if mode.signed { SIGNED } else { 0 };
            let rep = if mode.rep { REP } else { 0 };
            mode.width.code() | signed | rep
        };
        match self {
            Operation::Alu(alu, width) => (alu as u8, width.code()),
            Operation::Multiply(mode) => (MULTIPLY, bits(mode)),
            Operation::Divide(mode) => (DIVIDE, bits(mode)),
            Operation::Decimal(decimal) => (decimal as u8, 0),
        }
    }

    /// Every op with every mode it allows, in the order of their numbers.
    pub fn all() -> impl Iterator<Item = Operation> {
        (0x00..=0xFF).flat_map(|op| (0..8).filter_map(move |mode| Self::decode(op, mode).ok()))
    }

    /// The largest X admitted.
    pub fn x_limit(self) -> u32 {
        match self {
            Operation::Alu(_, width) => width.largest(),
            Operation::Multiply(mode) => mode.width.largest(),
            Operation::Divide(mode) => match mode.width {
                Width::Byte => 0xFFFF,
                Width::Word => 0xFFFF_FFFF,
            },
            Operation::Decimal(_) => 0xFFFF,
        }
    }

    /// The largest Y admitted.
    pub fn y_limit(self) -> u16 {
        match self {
            Operation::Alu(Alu::Neg, _) => 0,
            Operation::Alu(alu, _) if alu.counts() => 0xFF,
            Operation::Alu(_, width) => width.largest() as u16,
            Operation::Multiply(mode) | Operation::Divide(mode) => mode.width.largest() as u16,
            Operation::Decimal(Decimal::Aad) => 0xFF,
            Operation::Decimal(_) => 0,
        }
    }
}

/// A request that is admitted.
#[derive(Clone, Copy, Debug, PartialEq, Eq)]
pub struct Request {
    operation: Operation,
    flags: u16,
    x: u32,
    y: u16,
}

impl Request {
    pub fn new(operation: Operation, flags: u16, x: u32, y: u16) -> Result<Request, Fault> {
        if flags & !ALL_FLAGS != 0 || x > operation.x_limit() || y > operation.y_limit() {
            return Err(Fault::Range);
        }
        Ok(Request {
            operation,
            flags,
            x,
            y,
        })
    }

    /// Reads a line handed in without its line feed. All digits are read before
    /// any field is judged, because the scope sets that order.
    pub fn parse(line: &[u8]) -> Result<Request, Fault> {
        if line.len() != REQUEST_DIGITS {
            return Err(Fault::Length);
        }
        let field = |from, to| hex::read(&line[from..to]).ok_or(Fault::Digit);
        let op = field(0, 2)? as u8;
        let mode = field(2, 4)? as u8;
        let flags = field(4, 8)? as u16;
        let x = field(8, 16)?;
        let y = field(16, 20)? as u16;
        Request::new(Operation::decode(op, mode)?, flags, x, y)
    }

    /// The line, with its line feed.
    pub fn to_line(&self) -> [u8; REQUEST_DIGITS + 1] {
        let (op, mode) = self.operation.code();
        let mut line = [b'\n'; REQUEST_DIGITS + 1];
        hex::write(op.into(), &mut line[0..2]);
        hex::write(mode.into(), &mut line[2..4]);
        hex::write(self.flags.into(), &mut line[4..8]);
        hex::write(self.x, &mut line[8..16]);
        hex::write(self.y.into(), &mut line[16..20]);
        line
    }

    pub fn operation(&self) -> Operation {
        self.operation
    }

    pub fn flags(&self) -> u16 {
        self.flags
    }

    pub fn x(&self) -> u32 {
        self.x
    }

    pub fn y(&self) -> u16 {
        self.y
    }
}
