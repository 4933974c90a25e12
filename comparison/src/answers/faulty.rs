//! Lines with several faults at once, for the order of the refusals.

use super::lines::{digits, in_any_case, word, written, STATUSES};
use super::reference::{self, DIGITS};
use crate::lines::texts::STRANGE;
use oracle::draw::Draw;
use oracle::request::ALL_FLAGS;

/// Which of the five refusals apply, in their order.
pub type Faults = [bool; 5];

/// The most bytes that a line has here.
const LONGEST: u32 = 40;

/// All that can be made together, none among them. A status that is none has no zeros to keep, so that
/// the third and the fifth exclude each other.
pub fn all() -> Vec<Faults> {
    let of_bits = |bits: u8| [0, 1, 2, 3, 4].map(|place| bits >> place & 1 != 0);
    let combinations = (0..32).map(of_bits);
    combinations
        .filter(|faults| !(faults[2] && faults[4]))
        .collect()
}

/// A line that has these faults and no other.
pub fn line(draw: &mut Draw, faults: Faults) -> Vec<u8> {
    loop {
        let line = attempt(draw, faults);
        if reference::faults(&line) == faults {
            return line;
        }
    }
}

/// Often such a line. It can have one fault less, or another that comes with those.
fn attempt(draw: &mut Draw, [length, digit, status, flags, _]: Faults) -> Vec<u8> {
    let or_zero = |draw: &mut Draw| word(draw) & draw.pick(&[0, 0xFFFF]);
    let any_status = draw.below(256) as u16;
    let listed = draw.pick(&STATUSES);
    let any_flags = or_zero(draw);
    let record = [
        if status { any_status } else { listed },
        any_flags & if flags { 0xFFFF } else { ALL_FLAGS },
        or_zero(draw),
        or_zero(draw),
        or_zero(draw),
    ];
    let mut line = in_any_case(draw, written(record));
    if length {
        let length = draw.below(LONGEST + 1) as usize;
        line.extend(digits(draw, length.saturating_sub(DIGITS)));
        line.truncate(length);
    }
    if digit && !line.is_empty() {
        let place = draw.below(line.len() as u32) as usize;
        line[place] = draw.pick(STRANGE);
    }
    line
}
