//! Runs one request on MartyPC's functions and writes the answer line.
//!
//! The functions give results in several shapes. Here they are put into the
//! one shape of the scope, so that two programs can be compared byte by byte.

use crate::cpu_common::alu::*;
use crate::hex;
use crate::refusal::Refused;
use crate::request::{Alu, Decimal, Mode, Operation, Request, Width};
use crate::shim::{Flag, Intel808x};

/// The digits of an answer line, without its line feed.
pub const ANSWER_DIGITS: usize = 18;

/// What MartyPC gives for one request.
#[derive(Clone, Copy, Debug, PartialEq, Eq)]
pub struct Answer {
    /// Why the divide was refused; nothing if there is a result.
    pub refused: Option<Refused>,
    pub flags: u16,
    pub steps: u16,
    /// The result, quotient, AX or product; of a 16-bit product the upper half.
    pub r: u16,
    /// The remainder, or that product's lower half; else 0.
    pub s: u16,
}

impl Answer {
    /// That of the refusal; 0 if there is none.
    #[inline]
    pub fn status(&self) -> u8 {
        self.refused.map_or(0, Refused::status)
    }

    /// The line, with its line feed.
    #[inline]
    pub fn to_line(&self) -> [u8; ANSWER_DIGITS + 1] {
        let mut line = [b'\n'; ANSWER_DIGITS + 1];
        hex::write(self.status().into(), &mut line[0..2]);
        hex::write(self.flags.into(), &mut line[2..6]);
        hex::write(self.steps.into(), &mut line[6..10]);
        hex::write(self.r.into(), &mut line[10..14]);
        hex::write(self.s.into(), &mut line[14..18]);
        line
    }

    fn accepted(cpu: &Intel808x, r: u16, s: u16) -> Answer {
        Answer {
            refused: None,
            flags: cpu.flags(),
            steps: cpu.steps(),
            r,
            s,
        }
    }

    fn refused(cpu: &Intel808x, why: Refused) -> Answer {
        Answer {
            refused: Some(why),
            ..Answer::accepted(cpu, 0, 0)
        }
    }
}

/// Runs one request. This is the call for comparisons and benchmarks.
pub fn answer(request: &Request) -> Answer {
    let (x, y) = (request.x(), request.y());
    match request.operation() {
        Operation::Alu(alu, Width::Byte) => {
            leaf(alu, x as u8, y as u8, y as u8, request.flags()).answer(request.flags())
        }
        Operation::Alu(alu, Width::Word) => {
            leaf(alu, x as u16, y, y as u8, request.flags()).answer(request.flags())
        }
        Operation::Multiply(mode) => multiply(mode, request.flags(), x as u16, y),
        Operation::Divide(mode) => divide(mode, request),
        Operation::Decimal(decimal) => adjust(decimal, request.flags(), x as u16, y as u8),
    }
}

/// A leaf's result, the flags it names and those of them it sets.
struct Leaf {
    result: u16,
    named: u16,
    set: u16,
}

impl Leaf {
    fn new(result: impl Into<u16>, flags: &[(Flag, bool)]) -> Leaf {
        let mut leaf = Leaf {
            result: result.into(),
            named: 0,
            set: 0,
        };
        for &(flag, state) in flags {
            leaf.named |= flag as u16;
            leaf.set |= if state { flag as u16 } else { 0 };
        }
        leaf
    }

    /// A leaf counts no steps, and flags it does not name stay.
    fn answer(self, handed_in: u16) -> Answer {
        Answer {
            refused: None,
            flags: handed_in & !self.named | self.set,
            steps: 0,
            r: self.result,
            s: 0,
        }
    }
}

#[inline]
fn c<T: Into<u16>>((result, carry): (T, bool)) -> Leaf {
    Leaf::new(result, &[(Flag::Carry, carry)])
}

#[inline]
fn co<T: Into<u16>>((result, carry, overflow): (T, bool, bool)) -> Leaf {
    Leaf::new(result, &[(Flag::Carry, carry), (Flag::Overflow, overflow)])
}

#[inline]
fn coa<T: Into<u16>>((result, carry, overflow, aux): (T, bool, bool, bool)) -> Leaf {
    Leaf::new(
        result,
        &[
            (Flag::Carry, carry),
            (Flag::Overflow, overflow),
            (Flag::AuxCarry, aux),
        ],
    )
}

/// Both widths have the same leaves, so one function calls them for both.
fn leaf<T>(alu: Alu, x: T, y: T, count: u8, flags: u16) -> Leaf
where
    T: AluAdd + AluAdc + AluSub + AluSbb + AluNeg + Into<u16>,
    T: AluShiftLeft + AluShiftLeftAf + AluShiftRight + AluShiftArithmeticRight,
    T: AluRotateLeft + AluRotateRight + AluRotateCarryLeft + AluRotateCarryRight,
{
    let carry = flags & Flag::Carry as u16 != 0;
    match alu {
        Alu::Add => coa(x.alu_add(y)),
        Alu::Adc => coa(x.alu_adc(y, carry)),
        Alu::Sub => coa(x.alu_sub(y)),
        Alu::Sbb => coa(x.alu_sbb(y, carry)),
        Alu::Neg => coa(x.alu_neg()),
        Alu::Shl => co(x.alu_shl(count)),
        Alu::Shr => c(x.alu_shr(count)),
        Alu::Sar => c(x.alu_sar(count)),
        Alu::Rol => co(x.alu_rol(count)),
        Alu::Ror => co(x.alu_ror(count)),
        Alu::Rcl => co(x.alu_rcl(count, carry)),
        Alu::Rcr => co(x.alu_rcr(count, carry)),
        Alu::ShlAf => coa(x.alu_shl_af(count)),
    }
}

fn multiply(mode: Mode, flags: u16, x: u16, y: u16) -> Answer {
    let mut cpu = Intel808x::with(0, flags);
    let (r, s) = match mode.width {
        Width::Byte => (cpu.mul8(x as u8, y as u8, mode.signed, mode.rep), 0),
        Width::Word => cpu.mul16(x, y, mode.signed, mode.rep),
    };
    Answer::accepted(&cpu, r, s)
}

fn divide(mode: Mode, request: &Request) -> Answer {
    let (x, y) = (request.x(), request.y());
    let mut cpu = Intel808x::with(0, request.flags());
    let quotient_and_remainder = match mode.width {
        Width::Byte => cpu
            .div8(x as u16, y as u8, mode.signed, mode.rep)
            .map(|(quotient, remainder)| (quotient.into(), remainder.into())),
        Width::Word => cpu.div16(x, y, mode.signed, mode.rep),
    };
    match quotient_and_remainder {
        Ok((quotient, remainder)) => Answer::accepted(&cpu, quotient, remainder),
        Err(_) => Answer::refused(&cpu, Refused::of_refused(mode, request)),
    }
}

fn adjust(decimal: Decimal, flags: u16, ax: u16, y: u8) -> Answer {
    let mut cpu = Intel808x::with(ax, flags);
    match decimal {
        Decimal::Aaa => cpu.aaa(),
        Decimal::Aas => cpu.aas(),
        Decimal::Aad => cpu.aad(y),
        Decimal::Daa => cpu.daa(),
        Decimal::Das => cpu.das(),
    }
    Answer::accepted(&cpu, cpu.a.x(), 0)
}
