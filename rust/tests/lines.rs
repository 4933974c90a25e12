//! Text: cut anywhere, with lines of any length, and with readers and writers that fail.

use hatchyarn::{answer_all, answer_line, raw};
use std::io::{self, Read, Write};

const GOOD: &[u8] = b"11000000000000070002";
const GOOD_ANSWER: &[u8] = b"000001005100030001\n";
const TOO_LONG: &[u8] = b"010000000000000000\n";

/// Hands out a few bytes at a time.
struct Slowly<'a>(&'a [u8], usize);

impl Read for Slowly<'_> {
    fn read(&mut self, room: &mut [u8]) -> io::Result<usize> {
        let n = self.1.min(room.len());
        self.0.read(&mut room[..n])
    }
}

/// Takes so many bytes, and no more.
struct Full(usize);

impl Write for Full {
    fn write(&mut self, bytes: &[u8]) -> io::Result<usize> {
        let n = bytes.len().min(self.0);
        self.0 -= n;
        Ok(n)
    }

    fn flush(&mut self) -> io::Result<()> {
        Ok(())
    }
}

fn answers(input: impl Read) -> Vec<u8> {
    let mut output = Vec::new();
    answer_all(input, &mut output).expect("a list takes every byte");
    output
}

#[test]
fn cutting_the_input_changes_nothing() {
    let text = [GOOD, b"\n\nshort\n", GOOD, b"\r\n", GOOD].concat();
    let whole = answers(&text[..]);
    assert_eq!(whole.len(), 5 * 19);
    for n in 1..60 {
        assert_eq!(answers(Slowly(&text, n)), whole, "{n} bytes at a time");
    }
}

#[test]
fn a_long_line_is_one_line() {
    for length in [21, 65_535, 65_536, 65_537, 200_000, 131_072] {
        let long = vec![b'0'; length];
        let text = [&long[..], b"\n", GOOD, b"\n", &long[..]].concat();
        let expected = [TOO_LONG, GOOD_ANSWER, TOO_LONG].concat();
        assert_eq!(answers(&text[..]), expected, "{length} bytes");
    }
}

#[test]
fn many_lines_are_each_answered() {
    let text = [GOOD, b"\n"].concat().repeat(20_000);
    assert_eq!(answers(&text[..]), GOOD_ANSWER.repeat(20_000));
}

#[test]
fn no_input_gives_no_answer() {
    assert!(answers(&b""[..]).is_empty());
}

#[test]
fn a_failed_write_is_an_error() {
    let text = [GOOD, b"\n"].concat().repeat(3);
    let error = answer_all(&text[..], Full(40)).unwrap_err();
    assert_eq!(error.kind(), io::ErrorKind::WriteZero);
}

#[test]
fn without_room_nothing_is_written() {
    for room in 0..19 {
        let mut out = vec![0xA5; room];
        assert_eq!(raw::line(GOOD, &mut out), 7);
        assert_eq!(
            raw::run(GOOD, &mut out, true),
            raw::Ran { lines: 0, used: 0 }
        );
        assert!(out.iter().all(|byte| *byte == 0xA5));
    }
    let mut out = [0xA5; 21];
    assert_eq!(raw::line(GOOD, &mut out), 0);
    assert_eq!(&out[..19], &answer_line(GOOD));
    assert_eq!(out[19..], [0xA5; 2]);
}
