//! What a careful engineer writes over MartyPC's functions to answer raw numbers: the same job as
//! the port's `ask`, with the scope's statuses. Benchmarks time the port beside it.

use crate::sides::{refused, Numbers};
use oracle::cpu_808x::{Flag, Intel808x};
use oracle::cpu_common::alu::*;
use oracle::request::ALL_FLAGS;

const C: u16 = Flag::Carry as u16;
const O: u16 = Flag::Overflow as u16;
const A: u16 = Flag::AuxCarry as u16;

const SIXTEEN: u8 = 0x01;
const SIGNED: u8 = 0x02;
const REP: u8 = 0x04;

/// Answers a request given as numbers. It is never inlined, because the port's is a call too.
#[inline(never)]
pub fn ask(op: u8, mode: u8, flags: u16, x: u32, y: u16) -> Numbers {
    match op {
        0x00..=0x0C => alu(op, mode, flags, x, y),
        0x10 => multiply(mode, flags, x, y),
        0x11 => divide(mode, flags, x, y),
        0x18..=0x1C => adjust(op, mode, flags, x, y),
        _ => refused(3),
    }
}

/// Status 5 applies: an operand above its limit, or a flag that is none.
#[inline]
fn out_of_range(flags: u16, x: u32, x_limit: u32, y: u16, y_limit: u16) -> bool {
    x > x_limit || y > y_limit || flags & !ALL_FLAGS != 0
}

#[inline]
fn done(flags: u16, steps: u16, r: u16, s: u16) -> Numbers {
    Numbers {
        status: 0,
        flags,
        steps,
        r,
        s,
    }
}

#[inline]
fn alu(op: u8, mode: u8, flags: u16, x: u32, y: u16) -> Numbers {
    if mode & !SIXTEEN != 0 {
        return refused(4);
    }
    let largest = if mode == SIXTEEN { 0xFFFF } else { 0xFF };
    let y_limit = match op {
        0x00..=0x03 => largest,
        0x04 => 0,
        _ => 0xFF,
    };
    if out_of_range(flags, x, largest.into(), y, y_limit) {
        return refused(5);
    }
    let (r, named, set) = if mode == SIXTEEN {
        leaf(op, x as u16, y, y as u8, flags & C != 0)
    } else {
        leaf(op, x as u8, y as u8, y as u8, flags & C != 0)
    };
    done(flags & !named | set, 0, r, 0)
}

/// The result, the flags that the leaf names, and those of them that it sets.
#[inline]
fn leaf<T>(op: u8, x: T, y: T, count: u8, carry: bool) -> (u16, u16, u16)
where
    T: AluAdd + AluAdc + AluSub + AluSbb + AluNeg + Into<u16>,
    T: AluShiftLeft + AluShiftLeftAf + AluShiftRight + AluShiftArithmeticRight,
    T: AluRotateLeft + AluRotateRight + AluRotateCarryLeft + AluRotateCarryRight,
{
    match op {
        0x00 => coa(x.alu_add(y)),
        0x01 => coa(x.alu_adc(y, carry)),
        0x02 => coa(x.alu_sub(y)),
        0x03 => coa(x.alu_sbb(y, carry)),
        0x04 => coa(x.alu_neg()),
        0x05 => co(x.alu_shl(count)),
        0x06 => c(x.alu_shr(count)),
        0x07 => c(x.alu_sar(count)),
        0x08 => co(x.alu_rol(count)),
        0x09 => co(x.alu_ror(count)),
        0x0A => co(x.alu_rcl(count, carry)),
        0x0B => co(x.alu_rcr(count, carry)),
        _ => coa(x.alu_shl_af(count)),
    }
}

#[inline]
fn bit(flag: u16, state: bool) -> u16 {
    if state {
        flag
    } else {
        0
    }
}

#[inline]
fn c<T: Into<u16>>((r, carry): (T, bool)) -> (u16, u16, u16) {
    (r.into(), C, bit(C, carry))
}

#[inline]
fn co<T: Into<u16>>((r, carry, overflow): (T, bool, bool)) -> (u16, u16, u16) {
    (r.into(), C | O, bit(C, carry) | bit(O, overflow))
}

#[inline]
fn coa<T: Into<u16>>((r, carry, overflow, aux): (T, bool, bool, bool)) -> (u16, u16, u16) {
    let set = bit(C, carry) | bit(O, overflow) | bit(A, aux);
    (r.into(), C | O | A, set)
}

#[inline]
fn multiply(mode: u8, flags: u16, x: u32, y: u16) -> Numbers {
    if mode > SIXTEEN | SIGNED | REP {
        return refused(4);
    }
    let largest = if mode & SIXTEEN != 0 { 0xFFFF } else { 0xFF };
    if out_of_range(flags, x, largest.into(), y, largest) {
        return refused(5);
    }
    let (signed, rep) = (mode & SIGNED != 0, mode & REP != 0);
    let mut cpu = Intel808x::with(0, flags);
    let (r, s) = if mode & SIXTEEN != 0 {
        cpu.mul16(x as u16, y, signed, rep)
    } else {
        (cpu.mul8(x as u8, y as u8, signed, rep), 0)
    };
    done(cpu.flags(), cpu.steps(), r, s)
}

#[inline]
fn divide(mode: u8, flags: u16, x: u32, y: u16) -> Numbers {
    if mode > SIXTEEN | SIGNED | REP {
        return refused(4);
    }
    let (x_limit, y_limit) = match mode & SIXTEEN != 0 {
        true => (u32::MAX, 0xFFFF),
        false => (0xFFFF, 0xFF),
    };
    if out_of_range(flags, x, x_limit, y, y_limit) {
        return refused(5);
    }
    let (signed, rep) = (mode & SIGNED != 0, mode & REP != 0);
    let mut cpu = Intel808x::with(0, flags);
    let outcome = if mode & SIXTEEN != 0 {
        cpu.div16(x, y, signed, rep)
    } else {
        let outcome = cpu.div8(x as u16, y as u8, signed, rep);
        outcome.map(|(quotient, remainder)| (quotient.into(), remainder.into()))
    };
    match outcome {
        Ok((quotient, remainder)) => done(cpu.flags(), cpu.steps(), quotient, remainder),
        Err(_) => Numbers {
            status: refusal(mode, x, y),
            ..done(cpu.flags(), cpu.steps(), 0, 0)
        },
    }
}

/// The status of a divide that is refused. Of the magnitudes, the dividend's upper half is at least the
/// divisor exactly if the quotient is too wide; any other quotient is refused for its sign.
#[inline]
fn refusal(mode: u8, x: u32, y: u16) -> u8 {
    let (dividend, divisor) = match (mode & SIXTEEN != 0, mode & SIGNED != 0) {
        (_, false) => (x, y),
        (false, true) => (
            (x as i16).unsigned_abs().into(),
            (y as i8).unsigned_abs().into(),
        ),
        (true, true) => ((x as i32).unsigned_abs(), (y as i16).unsigned_abs()),
    };
    let bits = if mode & SIXTEEN != 0 { 16 } else { 8 };
    match divisor {
        0 => 6,
        _ if dividend >> bits >= divisor.into() => 8,
        _ => 9,
    }
}

#[inline]
fn adjust(op: u8, mode: u8, flags: u16, x: u32, y: u16) -> Numbers {
    if mode != 0 {
        return refused(4);
    }
    let y_limit = if op == 0x1A { 0xFF } else { 0 };
    if out_of_range(flags, x, 0xFFFF, y, y_limit) {
        return refused(5);
    }
    let mut cpu = Intel808x::with(x as u16, flags);
    match op {
        0x18 => cpu.aaa(),
        0x19 => cpu.aas(),
        0x1A => cpu.aad(y as u8),
        0x1B => cpu.daa(),
        _ => cpu.das(),
    }
    done(cpu.flags(), cpu.steps(), cpu.a.x(), 0)
}
