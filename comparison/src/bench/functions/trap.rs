//! The port's bare function that tells what would trap, beside its own bare divide. MartyPC has none.

use super::given::{Divided, Flags, Outcome};
use super::port;
use crate::bench::keys::Keys;
use crate::bench::table::{self, Row};
use crate::trap::call::Call;
use std::mem::MaybeUninit;

/// Prints the table. An error says where the two differ.
pub fn print() -> Result<(), String> {
    let inputs = "a page has one divisor";
    let rows = Keys::all().map(|keys| row(&keys));
    table::print_sides(inputs, ["bits", "its own divide"], rows)
}

macro_rules! both {
    ($keys:ident, $flags:ident: $width:ident($number:ty)) => {{
        let signed = $keys.calls[0].is_signed();
        let upper = |dividend: u32| (dividend >> <$number>::BITS) as $number;
        let tells = |call: Call, trap: &mut u8| {
            let (x, y) = (call.dividend, call.divisor as $number);
            // SAFETY: it is declared as the library has it, and touches nothing.
            *trap = unsafe { port::$width::divide_traps(upper(x), x as $number, y, signed) }.into();
            0
        };
        let divides = |call: Call, trap: &mut u8| {
            let (x, y) = (call.dividend, call.divisor as $number);
            let mut out: MaybeUninit<Divided<$number>> = MaybeUninit::uninit();
            // SAFETY: it is declared as the library has it, and writes all of its result.
            let divided = unsafe {
                port::$width::div(&mut out, upper(x), x as $number, y, signed, false, &$flags);
                out.assume_init()
            };
            *trap = matches!(divided.given, Outcome::Err(_)).into();
            0
        };
        $keys.row(tells, divides)
    }};
}

fn row(keys: &Keys) -> Row {
    let flags = Flags::from(0);
    match keys.calls[0].bits() {
        8 => both!(keys, flags: byte(u8)),
        _ => both!(keys, flags: word(u16)),
    }
}
