use crate::raw;
use std::io::{self, Read, Write};

/// The bytes of an answer line, its line feed included.
pub const ANSWER_BYTES: usize = 19;

/// Answers one request line, given without its line feed. There is an answer to every line: its
/// first two digits are the status.
///
/// ```
/// assert_eq!(&hatchyarn::answer_line(b"11000000000000070002"), b"000001005100030001\n");
/// assert_eq!(&hatchyarn::answer_line(b"no request"), b"010000000000000000\n");
/// ```
pub fn answer_line(line: &[u8]) -> [u8; ANSWER_BYTES] {
    let mut answer = [0; ANSWER_BYTES];
    raw::line(line, &mut answer);
    answer
}

/// Large enough that reading and writing cost little beside the answers.
const BLOCK: usize = 64 * 1024;

/// A line as long as this is too long for a request, whatever stands in it.
const LONG: usize = 21;

/// Answers every line of the input and returns how many there were. Memory is constant, however long
/// a line is. The last line may lack its line feed. A read or a write that fails ends the work with
/// its error; the answers before it are written.
///
/// ```
/// let requests = b"11000000000000070002\n110200000000FF800001\n";
/// let mut answers = Vec::new();
/// assert_eq!(hatchyarn::answer_all(&requests[..], &mut answers)?, 2);
/// assert_eq!(answers, b"000001005100030001\n090014005F00000000\n");
/// # Ok::<(), std::io::Error>(())
/// ```
pub fn answer_all(mut input: impl Read, mut output: impl Write) -> io::Result<u64> {
    let mut block = vec![0; BLOCK];
    let mut answers = vec![0; BLOCK / ANSWER_BYTES * ANSWER_BYTES];
    let mut kept = 0;
    let mut lines = 0;
    loop {
        let got = match input.read(&mut block[kept..]) {
            Err(error) if error.kind() == io::ErrorKind::Interrupted => continue,
            got => got?,
        };
        let have = kept + got;
        let (used, answered) = answer_block(&block[..have], &mut answers, got == 0, &mut output)?;
        lines += answered;
        if got == 0 {
            output.flush()?;
            return Ok(lines);
        }
        block.copy_within(used..have, 0);
        kept = have - used;
        // Of a line that fills the block so much is kept that it stays too long.
        if kept == block.len() {
            kept = LONG;
        }
    }
}

/// Answers the whole lines of a block, as many at a time as there is room for.
fn answer_block(
    text: &[u8],
    answers: &mut [u8],
    at_end: bool,
    output: &mut impl Write,
) -> io::Result<(usize, u64)> {
    let mut used = 0;
    let mut lines = 0;
    loop {
        let ran = raw::run(&text[used..], answers, at_end);
        if ran.lines == 0 {
            return Ok((used, lines));
        }
        output.write_all(&answers[..ran.lines * ANSWER_BYTES])?;
        used += ran.used;
        lines += ran.lines as u64;
    }
}
