//! Lines that are not admitted: every kind, each at its edge, and with the
//! faults of later kinds beside it so that the order of judging shows.

use crate::edges;
use crate::request::{Fault, Operation, Request, ALL_FLAGS, REQUEST_DIGITS};

/// A line that is admitted, to be spoilt in one place.
const SOUND: &[u8; REQUEST_DIGITS] = b"11000000000000070002";

/// The neighbours of the digits' ranges, and what files are known to hold.
const NO_DIGITS: &[u8] = b"/:@G`g +-.xX\t\r\0\x7F\x80\xFF";

/// A bit of the flags word that is no flag.
const NO_FLAG: u16 = 0x0002;

/// All of them, each without its line feed.
pub fn lines() -> Vec<Vec<u8>> {
    let mut lines = lengths();
    lines.extend(digits());
    lines.extend(ops());
    lines.extend(modes());
    lines.extend(ranges());
    lines
}

fn lengths() -> Vec<Vec<u8>> {
    let others = (0..=2 * REQUEST_DIGITS).filter(|&length| length != REQUEST_DIGITS);
    let mut lines: Vec<_> = others
        .chain([64, 200, 1000])
        .map(|n| vec![b'0'; n])
        .collect();
    lines.push([SOUND, &b"\r"[..]].concat());
    lines.push([&b" "[..], SOUND].concat());
    lines.push(vec![b'?'; REQUEST_DIGITS - 1]);
    lines
}

fn digits() -> impl Iterator<Item = Vec<u8>> {
    let spoilt = |place: usize, byte: u8| {
        let mut line = SOUND.to_vec();
        line[place] = byte;
        line
    };
    (0..REQUEST_DIGITS)
        .flat_map(move |place| NO_DIGITS.iter().map(move |&byte| spoilt(place, byte)))
}

fn ops() -> impl Iterator<Item = Vec<u8>> {
    let unlisted = (0x00..=0xFF).filter(|&op| Operation::decode(op, 0) == Err(Fault::Op));
    unlisted.flat_map(|op| {
        [
            written(op, 0, 0, 0, 0),
            written(op, 0xFF, 0xFFFF, u32::MAX, 0xFFFF),
        ]
    })
}

fn modes() -> impl Iterator<Item = Vec<u8>> {
    let pairs = (0x00..=0xFF).flat_map(|op| (0x00..=0xFF).map(move |mode| (op, mode)));
    let one_bit = |mode: u8| mode.count_ones() == 1 || mode == 0xFF;
    pairs
        .filter(move |&(op, mode)| one_bit(mode) && Operation::decode(op, mode) == Err(Fault::Mode))
        .map(|(op, mode)| written(op, mode, 0xFFFF, u32::MAX, 0xFFFF))
}

fn ranges() -> impl Iterator<Item = Vec<u8>> {
    Operation::all().flat_map(|operation| {
        let flags = (0..16)
            .map(|bit| 1 << bit)
            .filter(|bit| bit & ALL_FLAGS == 0);
        let mut asked: Vec<_> = flags.map(|flags| (flags, 0, 0)).collect();
        let (x, y) = (operation.x_limit(), operation.y_limit());
        asked.extend(x.checked_add(1).map(|x| (0, x, 0)));
        asked.extend(y.checked_add(1).map(|y| (0, 0, y)));
        asked.extend([(0, u32::MAX, 0), (0, 0, u16::MAX)]);
        // A divisor of 0 stands above; here are the other refusals of a divide.
        if let Operation::Divide(mode) = operation {
            let by_one = |&quotient: &u32| (NO_FLAG, quotient, 1);
            asked.extend(edges::refused_quotients(mode).iter().map(by_one));
        }
        let (op, mode) = operation.code();
        let refused = move |&(flags, x, y): &_| Request::new(operation, flags, x, y).is_err();
        asked
            .into_iter()
            .filter(refused)
            .map(move |(flags, x, y)| written(op, mode, flags, x, y))
    })
}

fn written(op: u8, mode: u8, flags: u16, x: u32, y: u16) -> Vec<u8> {
    format!("{op:02X}{mode:02X}{flags:04X}{x:08X}{y:04X}").into_bytes()
}
