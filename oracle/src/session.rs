//! A run over many lines, kept apart from the program so that other programs
//! and tests can have it without starting one.

use crate::answer::{answer, ANSWER_DIGITS};
use crate::request::{Fault, Request, REQUEST_DIGITS};
use std::fmt;
use std::io::{self, BufRead, Read, Write};

/// Why a run stopped before the end of its input.
#[derive(Debug)]
pub enum Stop {
    /// The line of this number, counted from 1, is not admitted.
    Line(u64, Fault),
    Read(io::Error),
    Write(io::Error),
}

impl fmt::Display for Stop {
    fn fmt(&self, out: &mut fmt::Formatter) -> fmt::Result {
        match self {
            Stop::Line(number, fault) => write!(out, "line {number}: {fault}"),
            Stop::Read(error) => write!(out, "cannot read the input: {error}"),
            Stop::Write(error) => write!(out, "cannot write the output: {error}"),
        }
    }
}

impl std::error::Error for Stop {}

/// Answers every line and returns their number. The answers before a line that
/// is not admitted are written all the same.
pub fn run(mut input: impl BufRead, mut output: impl Write) -> Result<u64, Stop> {
    let result = answer_lines(&mut input, &mut output);
    match output.flush() {
        Err(error) if !matches!(result, Err(Stop::Write(_))) => Err(Stop::Write(error)),
        _ => result,
    }
}

fn answer_lines(input: &mut impl BufRead, output: &mut impl Write) -> Result<u64, Stop> {
    // Room for a whole line and its feed. A longer line shows by filling the
    // room without a feed, so no line can make the buffer grow.
    const ROOM: usize = REQUEST_DIGITS + 1;
    let mut buffer = Vec::with_capacity(ROOM);
    let mut lines = 0;
    loop {
        buffer.clear();
        input
            .by_ref()
            .take(ROOM as u64)
            .read_until(b'\n', &mut buffer)
            .map_err(Stop::Read)?;
        if buffer.is_empty() {
            return Ok(lines);
        }
        lines += 1;
        let line = buffer.strip_suffix(b"\n").unwrap_or(&buffer);
        let request = Request::parse(line).map_err(|fault| Stop::Line(lines, fault))?;
        output
            .write_all(&answer(&request).to_line())
            .map_err(Stop::Write)?;
    }
}

/// Records every line, admitted or not, for a replay: its answer, a space, and
/// the line. A line that is not admitted is answered with its status and zeros.
/// Returns the number of lines.
pub fn record(mut input: impl BufRead, mut output: impl Write) -> Result<u64, Stop> {
    let mut buffer = Vec::new();
    let mut lines = 0;
    loop {
        buffer.clear();
        input.read_until(b'\n', &mut buffer).map_err(Stop::Read)?;
        if buffer.is_empty() {
            output.flush().map_err(Stop::Write)?;
            return Ok(lines);
        }
        lines += 1;
        let line = buffer.strip_suffix(b"\n").unwrap_or(&buffer);
        let record = [&answer_digits(line)[..], b" ", line, b"\n"].concat();
        output.write_all(&record).map_err(Stop::Write)?;
    }
}

fn answer_digits(line: &[u8]) -> Vec<u8> {
    match Request::parse(line) {
        Ok(request) => answer(&request).to_line()[..ANSWER_DIGITS].to_vec(),
        Err(fault) => format!("{:02X}{:016X}", fault.status(), 0).into_bytes(),
    }
}
