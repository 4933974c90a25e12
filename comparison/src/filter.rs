//! The program as a careful engineer ships it over MartyPC's functions: blocks in and out, digit
//! tables, no allocation for a line, and a line of any length in constant memory.

use crate::careful;
use crate::sides::{refused, Numbers};
use std::io::{self, BufRead, ErrorKind, Read, Write};

const BLOCK: usize = 1 << 16;
const REQUEST: usize = 20;
const ANSWER: usize = 19;

/// What the table of digits holds for a byte that is none.
const NO_DIGIT: u8 = 0xFF;

static VALUES: [u8; 256] = values();
static PAIRS: [[u8; 2]; 256] = pairs();

const fn values() -> [u8; 256] {
    let mut table = [NO_DIGIT; 256];
    let mut byte = 0;
    while byte < 256 {
        table[byte] = match byte as u8 {
            digit @ b'0'..=b'9' => digit - b'0',
            digit @ b'A'..=b'F' => digit - b'A' + 10,
            digit @ b'a'..=b'f' => digit - b'a' + 10,
            _ => NO_DIGIT,
        };
        byte += 1;
    }
    table
}

const fn pairs() -> [[u8; 2]; 256] {
    let capitals = b"0123456789ABCDEF";
    let mut table = [[0; 2]; 256];
    let mut byte = 0;
    while byte < 256 {
        table[byte] = [capitals[byte >> 4], capitals[byte & 15]];
        byte += 1;
    }
    table
}

/// Answers every line of an input.
pub fn run(mut input: impl Read, output: impl Write) -> io::Result<()> {
    let mut block = vec![0; BLOCK];
    let mut out = Answers::new(output);
    let mut kept = 0;
    // The line that the block starts within is already too long, and its bytes are dropped.
    let mut too_long = false;
    loop {
        let read = match input.read(&mut block[kept..]) {
            Ok(0) => break,
            Ok(read) => read,
            Err(error) if error.kind() == ErrorKind::Interrupted => continue,
            Err(error) => return Err(error),
        };
        let full = kept + read;
        let mut at = 0;
        if too_long {
            at = through_feed(&block[..full]);
            if block[at - 1] == b'\n' {
                out.put(&refused(1))?;
                too_long = false;
            }
        }
        at += lines(&block[at..full], &mut out)?;
        kept = full - at;
        if kept > REQUEST {
            too_long = true;
            kept = 0;
        }
        block.copy_within(at..at + kept, 0);
    }
    if too_long || kept > 0 {
        out.put(&answer(&block[..kept]))?;
    }
    out.flush()
}

/// Answers every line of a text that is all there, into room for its answers.
pub fn answer_text(text: &[u8], room: &mut [u8]) -> io::Result<()> {
    let mut out = Answers::new(room);
    let at = lines(text, &mut out)?;
    if at < text.len() {
        out.put(&answer(&text[at..]))?;
    }
    out.flush()
}

/// Answers one line, which stands without its feed.
pub fn answer_line(line: &[u8]) -> [u8; ANSWER] {
    written(&answer(line))
}

/// Answers the whole lines of a text and returns how many bytes they are.
fn lines<W: Write>(text: &[u8], out: &mut Answers<W>) -> io::Result<usize> {
    let mut at = 0;
    while at < text.len() {
        // Twenty digits and a feed hold no other feed, so none is looked for.
        if let Some((line, b'\n')) = text[at..].split_at_checked(REQUEST).and_then(first_after) {
            if let Some(given) = answer_digits(line) {
                out.put(&given)?;
                at += REQUEST + 1;
                continue;
            }
        }
        let next = at + through_feed(&text[at..]);
        match text[at..next].strip_suffix(b"\n") {
            Some(line) => out.put(&answer(line))?,
            None => break,
        }
        at = next;
    }
    Ok(at)
}

#[inline]
fn first_after<'a>((line, rest): (&'a [u8], &[u8])) -> Option<(&'a [u8], u8)> {
    rest.first().map(|&byte| (line, byte))
}

/// How many bytes there are up to the first feed, with it; all if there is none.
fn through_feed(mut text: &[u8]) -> usize {
    text.skip_until(b'\n')
        .expect("reading from memory cannot fail")
}

#[inline]
fn answer(line: &[u8]) -> Numbers {
    if line.len() != REQUEST {
        return refused(1);
    }
    answer_digits(line).unwrap_or(refused(2))
}

/// The answer to twenty digits; nothing if a byte is no digit.
#[inline]
fn answer_digits(line: &[u8]) -> Option<Numbers> {
    let line: &[u8; REQUEST] = line.try_into().ok()?;
    let mut seen = 0;
    let mut field = |from: usize, to: usize| {
        line[from..to].iter().fold(0, |value: u32, &byte| {
            let digit = VALUES[usize::from(byte)];
            seen |= digit;
            value << 4 | u32::from(digit & 15)
        })
    };
    let (op, mode, flags) = (field(0, 2) as u8, field(2, 4) as u8, field(4, 8) as u16);
    let (x, y) = (field(8, 16), field(16, 20) as u16);
    (seen != NO_DIGIT).then(|| careful::ask(op, mode, flags, x, y))
}

/// Answers gathered into blocks.
struct Answers<W> {
    output: W,
    block: Vec<u8>,
}

impl<W: Write> Answers<W> {
    fn new(output: W) -> Answers<W> {
        Answers {
            output,
            block: Vec::with_capacity(BLOCK),
        }
    }

    #[inline]
    fn put(&mut self, given: &Numbers) -> io::Result<()> {
        if self.block.len() + ANSWER > BLOCK {
            self.flush()?;
        }
        self.block.extend_from_slice(&written(given));
        Ok(())
    }

    fn flush(&mut self) -> io::Result<()> {
        self.output.write_all(&self.block)?;
        self.block.clear();
        self.output.flush()
    }
}

#[inline]
fn written(given: &Numbers) -> [u8; ANSWER] {
    let mut line = [b'\n'; ANSWER];
    line[0..2].copy_from_slice(&PAIRS[usize::from(given.status)]);
    for (place, word) in [given.flags, given.steps, given.r, given.s]
        .into_iter()
        .enumerate()
    {
        let [high, low] = word.to_be_bytes();
        let at = 2 + 4 * place;
        line[at..at + 2].copy_from_slice(&PAIRS[usize::from(high)]);
        line[at + 2..at + 4].copy_from_slice(&PAIRS[usize::from(low)]);
    }
    line
}
