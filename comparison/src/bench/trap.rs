//! What would trap, one call at a time: the port's function as C calls it beside the port's full divide of the
//! same request, and beside the host's own division in plain Rust.

use super::keys::Keys;
use super::table;
use crate::sides;
use crate::trap::call::{Answer, Call};
use crate::trap::{careful, linked};

/// Prints the two tables. An error says where two sides differ.
pub fn print() -> Result<(), String> {
    let inputs = "a page has one divisor; the aim is a ratio of at most 0.20";
    let rows = Keys::all().map(|keys| keys.row(ours, by_full_divide));
    table::print_sides(inputs, ["bits", "its full divide"], rows)?;
    println!();
    let inputs = "a page has one divisor";
    let rows = Keys::all().map(|keys| keys.row(ours, by_checked_division));
    table::print_sides(inputs, ["bits", "plain Rust, checked division"], rows)
}

#[inline(always)]
fn ours(call: Call, trap: &mut u8) -> u8 {
    linked::would_trap(call.mode, call.dividend, call.divisor, trap)
}

/// As whoever has no other function asks: for all of the divide, and keeps the status alone.
#[inline(always)]
fn by_full_divide(call: Call, trap: &mut u8) -> u8 {
    let given = Answer::of_divide(sides::ours(call.divide(0)).status);
    *trap = given.trap;
    given.status
}

#[inline(always)]
fn by_checked_division(call: Call, trap: &mut u8) -> u8 {
    careful::would_trap(call.mode, call.dividend, call.divisor, trap)
}
