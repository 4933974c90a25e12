//! Multiply, divide and the decimal adjusts, which take flags. MartyPC's have them in the processor; the port's are
//! lent them.

use super::pair::Measured;
use super::{martypc, port, Row};
use oracle::request::{Decimal, Mode, Width};

macro_rules! both {
    ($pair:ident, $input:ident: $($ours:ident)::+($($given:expr),*), $theirs:ident($($taken:expr),*)) => {
        $pair.row(
            // SAFETY: it is declared as the library has it, and touches nothing but what it is lent.
            |$input, out| unsafe { port::$($ours)::+(out, $($given,)* &$input.flags) },
            |$input, out| martypc::$theirs(out, $($taken,)* $input.word),
        )
    };
}

pub fn multiply(pair: &impl Measured, mode: Mode) -> Row {
    let (signed, rep) = (mode.signed, mode.rep);
    match mode.width {
        Width::Byte => both!(
            pair,
            i: byte::mul(i.x as u8, i.y as u8, signed, rep),
            mul8(i.x as u8, i.y as u8, signed, rep)
        ),
        Width::Word => both!(
            pair,
            i: word::mul(i.x as u16, i.y, signed, rep),
            mul16(i.x as u16, i.y, signed, rep)
        ),
    }
}

/// The port's divides take the dividend as its two halves.
pub fn divide(pair: &impl Measured, mode: Mode) -> Row {
    let (signed, rep) = (mode.signed, mode.rep);
    match mode.width {
        Width::Byte => both!(
            pair,
            i: byte::div((i.x >> 8) as u8, i.x as u8, i.y as u8, signed, rep),
            div8(i.x as u16, i.y as u8, signed, rep)
        ),
        Width::Word => both!(
            pair,
            i: word::div((i.x >> 16) as u16, i.x as u16, i.y, signed, rep),
            div16(i.x, i.y, signed, rep)
        ),
    }
}

pub fn adjust(pair: &impl Measured, decimal: Decimal) -> Row {
    match decimal {
        Decimal::Aaa => both!(pair, i: aaa(i.x as u16), aaa(i.x as u16)),
        Decimal::Aas => both!(pair, i: aas(i.x as u16), aas(i.x as u16)),
        Decimal::Aad => both!(pair, i: aad(i.x as u16, i.y as u8), aad(i.x as u16, i.y as u8)),
        Decimal::Daa => both!(pair, i: daa(i.x as u16), daa(i.x as u16)),
        Decimal::Das => both!(pair, i: das(i.x as u16), das(i.x as u16)),
    }
}
