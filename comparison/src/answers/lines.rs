//! Answer lines, drawn.

use super::reference::Record;
use crate::lines::texts::make_small;
use oracle::draw::Draw;
use oracle::request::ALL_FLAGS;

/// Every status that an answer has.
pub const STATUSES: [u16; 9] = [0, 1, 2, 3, 4, 5, 6, 8, 9];

/// Numbers at the ends of their range, or with digits at the ends of theirs.
const EDGES: [u16; 8] = [
    0x0000, 0x0001, 0x8000, 0xFFFF, 0x09AF, 0xFA90, 0x9999, 0xAAAA,
];

/// Half at an edge, half any.
pub fn word(draw: &mut Draw) -> u16 {
    match draw.below(2) {
        0 => draw.pick(&EDGES),
        _ => draw.bits() as u16,
    }
}

/// A number of four letters.
pub fn of_letters(draw: &mut Draw) -> u16 {
    (0..4).fold(0, |number, _| number << 4 | (10 + draw.below(6) as u16))
}

/// A record that is read, with this status.
pub fn good(draw: &mut Draw, status: u16) -> Record {
    let [flags, steps, r, s] = [0; 4].map(|_| word(draw));
    admitted([status, flags, steps, r, s])
}

/// The same, but for flags that are none and numbers where its status has zeros.
pub fn admitted([status, flags, steps, r, s]: Record) -> Record {
    let flags = flags & ALL_FLAGS;
    match status {
        0 => [status, flags, steps, r, s],
        1..=5 => [status, 0, 0, 0, 0],
        _ => [status, flags, steps, 0, 0],
    }
}

/// The digits of a record, in capitals. The status has two.
pub fn written([status, flags, steps, r, s]: Record) -> Vec<u8> {
    format!("{status:02X}{flags:04X}{steps:04X}{r:04X}{s:04X}").into_bytes()
}

/// The same in capitals, in small letters or in both.
pub fn in_any_case(draw: &mut Draw, mut line: Vec<u8>) -> Vec<u8> {
    let some = draw.bits();
    let small = draw.pick(&[0, u64::MAX, some]);
    make_small(&mut line, small);
    line
}

/// Any digits, in both cases.
pub fn digits(draw: &mut Draw, length: usize) -> Vec<u8> {
    let digit = |_| draw.pick(b"0123456789ABCDEFabcdef");
    (0..length).map(digit).collect()
}
