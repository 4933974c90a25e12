//! What a function writes. The port's records stand here as the library has them in memory;
//! MartyPC's functions write the same shapes, but for flags, which they keep as a word, and for the
//! outcome of a divide.

use oracle::cpu_808x::Flag;

#[repr(C)]
pub struct ResultC<T> {
    pub result: T,
    pub carry: bool,
}

#[repr(C)]
pub struct ResultCo<T> {
    pub result: T,
    pub carry: bool,
    pub overflow: bool,
}

#[repr(C)]
pub struct ResultCoa<T> {
    pub result: T,
    pub carry: bool,
    pub overflow: bool,
    pub aux_carry: bool,
}

/// The port's flags.
#[repr(C)]
#[derive(Clone, Copy)]
pub struct Flags {
    pub carry: bool,
    pub parity: bool,
    pub aux_carry: bool,
    pub zero: bool,
    pub sign: bool,
    pub overflow: bool,
}

/// The upper and the lower half of a product.
#[repr(C)]
pub struct Halves<T> {
    pub upper: T,
    pub lower: T,
}

/// The port's `Product` and `Adjusted`.
#[repr(C)]
pub struct Done<R, F> {
    pub given: R,
    pub flags: F,
    pub steps: u16,
}

/// The port's `Divided`.
#[repr(C)]
pub struct Divided<T> {
    pub given: Outcome<T>,
    pub flags: Flags,
    pub roads: Roads,
    pub steps: u16,
}

/// The `Result` of the port's divide, which has a byte for what it is, 0 or 1, before what it holds.
#[repr(u8)]
pub enum Outcome<T> {
    Ok(Results<T>),
    Err(Refusal),
}

#[repr(C)]
pub struct Results<T> {
    pub quotient: T,
    pub remainder: T,
}

#[repr(u8)]
pub enum Refusal {
    ZeroDivisor,
    TooWide,
    SignRange,
}

#[repr(C)]
pub struct Roads {
    pub shifted_out: u16,
    pub no_borrow: u16,
}

impl<T> From<(T, bool)> for ResultC<T> {
    fn from((result, carry): (T, bool)) -> ResultC<T> {
        ResultC { result, carry }
    }
}

impl<T> From<(T, bool, bool)> for ResultCo<T> {
    fn from((result, carry, overflow): (T, bool, bool)) -> ResultCo<T> {
        ResultCo {
            result,
            carry,
            overflow,
        }
    }
}

impl<T> From<(T, bool, bool, bool)> for ResultCoa<T> {
    fn from((result, carry, overflow, aux_carry): (T, bool, bool, bool)) -> ResultCoa<T> {
        ResultCoa {
            result,
            carry,
            overflow,
            aux_carry,
        }
    }
}

impl From<u16> for Flags {
    fn from(word: u16) -> Flags {
        let has = |flag: Flag| word & flag as u16 != 0;
        Flags {
            carry: has(Flag::Carry),
            parity: has(Flag::Parity),
            aux_carry: has(Flag::AuxCarry),
            zero: has(Flag::Zero),
            sign: has(Flag::Sign),
            overflow: has(Flag::Overflow),
        }
    }
}

impl From<Flags> for u16 {
    fn from(flags: Flags) -> u16 {
        word(&[
            (Flag::Carry, flags.carry),
            (Flag::Parity, flags.parity),
            (Flag::AuxCarry, flags.aux_carry),
            (Flag::Zero, flags.zero),
            (Flag::Sign, flags.sign),
            (Flag::Overflow, flags.overflow),
        ])
    }
}

fn word(flags: &[(Flag, bool)]) -> u16 {
    let bit = |&(flag, state): &(Flag, bool)| flag as u16 * u16::from(state);
    flags.iter().map(bit).sum()
}
