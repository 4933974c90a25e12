//! What a call has to be answered, written from the scope: fields read as wide numbers by the standard
//! library, lines cut by `split`.

use std::ops::Range;

/// The digits of an answer line.
pub const DIGITS: usize = 18;

/// Status, flags, steps, R and S.
pub type Record = [u16; 5];

/// Where each of them stands in a line.
pub const FIELDS: [Range<usize>; 5] = [0..2, 2..6, 6..10, 10..14, 14..18];

/// The status where no line is left.
pub const END: u8 = 255;

/// The status of each refusal, in the order in which they are looked for.
const REFUSALS: [u8; 5] = [30, 31, 32, 33, 34];

/// The flags that there are.
const ALL_FLAGS: u64 = 0x08D5;

/// The record, or the status of the first refusal that applies.
pub fn read(line: &[u8]) -> Result<Record, u8> {
    let mut faults = faults(line).into_iter().zip(REFUSALS);
    match faults.find(|(applies, _)| *applies) {
        Some((_, status)) => Err(status),
        None => Ok(fields(line).map(|field| field.expect("nothing is amiss") as u16)),
    }
}

/// Which of the five refusals apply, in their order: the line is not 18 bytes, a byte is no digit, the
/// status is none of an answer, a flag is none, a number stands where the status has zeros. The last three
/// speak of those fields that can be read, also where the line is too short or long or has a byte amiss.
pub fn faults(line: &[u8]) -> [bool; 5] {
    let [status, flags, rest @ ..] = fields(line);
    let [steps, r, s] = rest;
    let is_there = |field: Option<u64>| field.is_some_and(|number| number != 0);
    [
        line.len() != DIGITS,
        !line.iter().all(u8::is_ascii_hexdigit),
        status.is_some_and(|status| !matches!(status, 0..=6 | 8 | 9)),
        flags.is_some_and(|flags| flags & !ALL_FLAGS != 0),
        match status {
            Some(1..=5) => [flags, steps, r, s].into_iter().any(is_there),
            Some(6 | 8 | 9) => is_there(r) || is_there(s),
            _ => false,
        },
    ]
}

/// Each field that is there and has nothing but digits.
pub fn fields(line: &[u8]) -> [Option<u64>; 5] {
    FIELDS.map(|place| {
        let digits = line.get(place)?;
        let all = digits.iter().all(u8::is_ascii_hexdigit);
        let text = std::str::from_utf8(digits).ok().filter(|_| all)?;
        u64::from_str_radix(text, 16).ok()
    })
}

/// What the next line of a text is read as, and where what follows it starts.
#[derive(Clone, Copy, Debug, PartialEq, Eq)]
pub struct Next {
    pub read: Result<Record, u8>,
    pub past: usize,
}

/// Nothing where no line is left.
pub fn next(text: &[u8], place: usize) -> Option<Next> {
    let with_feed = with_feeds(text.get(place..)?).next()?;
    Some(Next {
        read: read(without_feed(with_feed)),
        past: place + with_feed.len(),
    })
}

/// All lines of a text: each ends at a line feed, and what follows the last one is a line if it is not
/// empty.
pub fn lines(text: &[u8]) -> impl Iterator<Item = &[u8]> {
    with_feeds(text).map(without_feed)
}

fn with_feeds(text: &[u8]) -> impl Iterator<Item = &[u8]> {
    text.split_inclusive(|&byte| byte == b'\n')
}

fn without_feed(line: &[u8]) -> &[u8] {
    line.strip_suffix(b"\n").unwrap_or(line)
}
