//! One call at a time: raw numbers in, an answer by the table of statuses out.

use super::drawn::Drawn;
use super::table::{self, Row};
use crate::asked::Asked;
use crate::careful;
use crate::sides::Numbers;
use hatchyarn::raw;
use std::hint::black_box;

/// Prints the tables. An error says which answers differ.
pub fn print() -> Result<(), String> {
    table::print_beside(row)?;
    println!();
    table::print_refused(row)
}

fn row(drawn: Drawn) -> Row {
    let ours = || black_box(sum(&drawn.asked, raw::ask));
    let theirs = || black_box(sum(&drawn.asked, careful::ask));
    if ours() != theirs() {
        let (name, bits) = drawn.named();
        return Err(format!("{name} {bits}: the two sides answer differently"));
    }
    Ok(table::beside(drawn.named(), || _ = ours(), || _ = theirs()))
}

/// Asks all and folds all that is answered, so that nothing can be left out.
#[inline(always)]
fn sum(inputs: &[Asked], ask: impl Fn(u8, u8, u16, u32, u16) -> Numbers) -> u64 {
    black_box(inputs).iter().fold(0, |sum: u64, asked| {
        let given = ask(asked.op, asked.mode, asked.flags, asked.x, asked.y);
        let low = u64::from(given.r) | u64::from(given.s) << 16;
        let high = u64::from(given.flags) << 32 | u64::from(given.steps) << 48;
        sum.rotate_left(5) ^ (low | high) ^ u64::from(given.status)
    })
}
