//! ADD to SHL with A, of which both sides take the same arguments.

use super::pair::Measured;
use super::{martypc, port, Row};
use oracle::request::Alu;

macro_rules! leaf {
    ($pair:ident, $width:ident::$name:ident($input:ident: $($argument:expr),*)) => {
        $pair.row(
            // SAFETY: it is declared as the library has it, and touches nothing but its result.
            |$input, out| unsafe { port::$width::$name(out, $($argument),*) },
            |$input, out| martypc::$name(out, $($argument),*),
        )
    };
}

macro_rules! leaves {
    ($width:ident, $number:ty) => {
        pub fn $width(pair: &impl Measured, alu: Alu) -> Row {
            match alu {
                Alu::Add => leaf!(pair, $width::alu_add(i: i.x as $number, i.y as $number)),
                Alu::Adc => leaf!(pair, $width::alu_adc(i: i.x as $number, i.y as $number, i.carry)),
                Alu::Sub => leaf!(pair, $width::alu_sub(i: i.x as $number, i.y as $number)),
                Alu::Sbb => leaf!(pair, $width::alu_sbb(i: i.x as $number, i.y as $number, i.carry)),
                Alu::Neg => leaf!(pair, $width::alu_neg(i: i.x as $number)),
                Alu::Shl => leaf!(pair, $width::alu_shl(i: i.x as $number, i.y as u8)),
                Alu::Shr => leaf!(pair, $width::alu_shr(i: i.x as $number, i.y as u8)),
                Alu::Sar => leaf!(pair, $width::alu_sar(i: i.x as $number, i.y as u8)),
                Alu::Rol => leaf!(pair, $width::alu_rol(i: i.x as $number, i.y as u8)),
                Alu::Ror => leaf!(pair, $width::alu_ror(i: i.x as $number, i.y as u8)),
                Alu::Rcl => leaf!(pair, $width::alu_rcl(i: i.x as $number, i.y as u8, i.carry)),
                Alu::Rcr => leaf!(pair, $width::alu_rcr(i: i.x as $number, i.y as u8, i.carry)),
                Alu::ShlAf => leaf!(pair, $width::alu_shl_af(i: i.x as $number, i.y as u8)),
            }
        }
    };
}

leaves!(byte, u8);
leaves!(word, u16);
