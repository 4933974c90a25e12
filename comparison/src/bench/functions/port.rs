//! The port's own functions, which `./bench` opens under names that begin with `port_`.
//!
//! They are those of crates/alu, multiply, divide, bcd and trap. Most are generic, and there is one for each width. It
//! writes a record to where its first argument points, takes numbers and bools by value, and reads flags where a pointer
//! leads. `comparison/opened` sees to that where the library returns a record in registers.

use super::given::{Done, Flags, Halves};
use std::mem::MaybeUninit;

pub type Product<T> = Done<Halves<T>, Flags>;
pub type Adjusted = Done<u16, Flags>;

macro_rules! opened {
    ($bits:literal: $($name:ident($($argument:ident: $kind:ty),*) -> $given:ty;)*) => {
        extern "C" {
            $(
                #[link_name = concat!("port_", stringify!($name), $bits)]
                pub fn $name(out: &mut MaybeUninit<$given>, $($argument: $kind),*);
            )*
        }
    };
}

macro_rules! generic {
    ($module:ident, $bits:literal, $width:ty) => {
        pub mod $module {
            use super::super::given::{Divided, Flags, ResultC, ResultCo, ResultCoa};
            use super::Product;
            use std::mem::MaybeUninit;

            opened! {
                $bits:
                alu_add(x: $width, y: $width) -> ResultCoa<$width>;
                alu_adc(x: $width, y: $width, carry: bool) -> ResultCoa<$width>;
                alu_sub(x: $width, y: $width) -> ResultCoa<$width>;
                alu_sbb(x: $width, y: $width, carry: bool) -> ResultCoa<$width>;
                alu_neg(x: $width) -> ResultCoa<$width>;
                alu_shl(x: $width, count: u8) -> ResultCo<$width>;
                alu_shr(x: $width, count: u8) -> ResultC<$width>;
                alu_sar(x: $width, count: u8) -> ResultC<$width>;
                alu_rol(x: $width, count: u8) -> ResultCo<$width>;
                alu_ror(x: $width, count: u8) -> ResultCo<$width>;
                alu_rcl(x: $width, count: u8, carry: bool) -> ResultCo<$width>;
                alu_rcr(x: $width, count: u8, carry: bool) -> ResultCo<$width>;
                alu_shl_af(x: $width, count: u8) -> ResultCoa<$width>;
                mul(x: $width, y: $width, signed: bool, rep: bool, flags: &Flags) -> Product<$width>;
                div(upper: $width, lower: $width, divisor: $width, signed: bool, rep: bool, flags: &Flags) -> Divided<$width>;
            }

            // A bool that is all of a result is returned.
            extern "C" {
                #[link_name = concat!("port_divide_traps", $bits)]
                pub fn divide_traps(upper: $width, lower: $width, divisor: $width, signed: bool) -> bool;
            }
        }
    };
}

generic!(byte, "8", u8);
generic!(word, "16", u16);

opened! {
    "":
    aaa(ax: u16, flags: &Flags) -> Adjusted;
    aas(ax: u16, flags: &Flags) -> Adjusted;
    aad(ax: u16, byte: u8, flags: &Flags) -> Adjusted;
    daa(ax: u16, flags: &Flags) -> Adjusted;
    das(ax: u16, flags: &Flags) -> Adjusted;
}
