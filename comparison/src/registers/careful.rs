//! What a careful engineer writes in plain Rust who has the port's answers by value alone: X is made from the
//! registers, and the answer put back into them. Benchmarks time the port's function over the record beside it.

use super::call::{Call, Record, MULTIPLY};
use crate::sides::Numbers;
use crate::trap::call::{DIVIDE, WORD};
use hatchyarn::raw;

/// Does as the port's function does. It may be inlined: it makes one call into the library, as the port's is one.
#[inline]
pub fn operate(call: Call, record: &mut Record, steps: &mut u16) -> u8 {
    *steps = 0;
    let x = match (call.op, call.mode & WORD != 0) {
        (MULTIPLY, false) => u32::from(record.ax & 0xFF),
        (DIVIDE, true) => u32::from(record.dx) << 16 | u32::from(record.ax),
        (MULTIPLY | DIVIDE | 0x18..=0x1C, _) => record.ax.into(),
        _ => return 3,
    };
    let given = raw::ask(call.op, call.mode, record.flags, x, call.y);
    if matches!(given.status, 3..=5) {
        return given.status;
    }
    let Some(total) = record.total.checked_add(given.steps.into()) else {
        return 10;
    };
    record.total = total;
    record.flags = given.flags;
    *steps = given.steps;
    if given.status == 0 {
        put_back(call, record, &given);
    }
    given.status
}

#[inline]
fn put_back(call: Call, record: &mut Record, given: &Numbers) {
    match (call.op, call.mode & WORD != 0) {
        (MULTIPLY, true) => (record.dx, record.ax) = (given.r, given.s),
        (DIVIDE, true) => (record.ax, record.dx) = (given.r, given.s),
        (DIVIDE, false) => record.ax = given.s << 8 | given.r,
        _ => record.ax = given.r,
    }
}
