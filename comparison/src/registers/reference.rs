//! What has to come of a call, written from the rules and not as the port does it: the refusals in their order,
//! what is stored where, and the total, which is added up in 64 bits.

use super::call::{Call, Outcome, Record, AAD, MULTIPLY};
use super::charts;
use crate::asked::Asked;
use crate::sides::Numbers;
use crate::trap::call::DIVIDE;
use oracle::request::ALL_FLAGS;

/// The largest total.
pub const MOST: u64 = 4_294_967_295;

/// The status of a total that would pass its most.
pub const TOTAL_FULL: u8 = 10;

/// The status of each refusal of a call, in the order in which they are looked for.
const STATUSES: [u8; 3] = [3, 4, 5];

pub fn outcome(call: Call, record: Record) -> Outcome {
    let mut faults = faults(call, record).into_iter().zip(STATUSES);
    match faults.find(|(applies, _)| *applies) {
        Some((_, status)) => Outcome::refused(status, record),
        None => settled(call, record, charts::numbers(call.asked(record))),
    }
}

/// Which of the three refusals apply, in their order: the op is not listed, the mode has a bit that the op does
/// not take, a flag is none or Y is too large. An op that is not listed is judged as an adjust in the rest.
pub fn faults(call: Call, record: Record) -> [bool; 3] {
    let all_modes = match call.op {
        MULTIPLY | DIVIDE => 0x07,
        _ => 0x00,
    };
    let is_no_flag = record.flags & !ALL_FLAGS != 0;
    [
        !call.is_listed(),
        call.mode > all_modes,
        is_no_flag || call.y > y_most(call),
    ]
}

/// The largest Y of a call.
pub fn y_most(call: Call) -> u16 {
    match call.op {
        MULTIPLY | DIVIDE if call.is_word() => 0xFFFF,
        MULTIPLY | DIVIDE | AAD => 0xFF,
        _ => 0,
    }
}

/// What comes of a call that is answered as another side answers the same by value. By value there are more ops.
pub fn outcome_by(side: impl Fn(Asked) -> Numbers, call: Call, record: Record) -> Outcome {
    match call.is_listed() {
        true => settled(call, record, side(call.asked(record))),
        false => Outcome::refused(3, record),
    }
}

/// What an answer by value comes to over the record.
fn settled(call: Call, record: Record, given: Numbers) -> Outcome {
    if STATUSES.contains(&given.status) {
        return Outcome::refused(given.status, record);
    }
    let total = u64::from(record.total) + u64::from(given.steps);
    if total > MOST {
        return Outcome::refused(TOTAL_FULL, record);
    }
    let [ax, dx] = match given.status {
        0 => results(call, record, given),
        _ => [record.ax, record.dx],
    };
    Outcome {
        status: given.status,
        record: Record {
            ax,
            dx,
            flags: given.flags,
            total: total as u32,
        },
        steps: given.steps,
    }
}

/// AX and DX afterwards: a product by its halves, or a quotient and what is left beside it.
fn results(call: Call, record: Record, given: Numbers) -> [u16; 2] {
    let Numbers { r, s, .. } = given;
    match (call.op, call.is_word()) {
        (MULTIPLY, true) => [s, r],
        (DIVIDE, true) => [r, s],
        (DIVIDE, false) => [s * 256 + r, record.dx],
        _ => [r, record.dx],
    }
}
