//! Request lines answered from memory: a whole text by `hatchyarn_run`, and each line by `hatchyarn_line`, beside
//! what the filter does with the same bytes over MartyPC's functions.

use super::files::{self, Kind};
use super::rounds;
use super::table::Row;
use crate::filter;
use crate::lines::model::ANSWER;
use hatchyarn::raw;
use std::convert::Infallible;
use std::hint::black_box;
use std::time::Instant;

/// Lines in each text.
const LINES: u64 = 100_000;

const ROUNDS: usize = 101;

/// Answers a text into a buffer of 19 bytes a line.
trait AnswersText: Fn(&[u8], &mut [u8]) {}
/// Answers one line.
trait AnswersLine: Fn(&[u8], &mut [u8; ANSWER]) {}

impl<F: Fn(&[u8], &mut [u8])> AnswersText for F {}
impl<F: Fn(&[u8], &mut [u8; ANSWER])> AnswersLine for F {}

/// Prints the table. An error says where the two sides differ.
pub fn print() -> Result<(), String> {
    println!(
        "{LINES} lines for each row; {ROUNDS} rounds of one pass over them, the two in turn; nanoseconds \
         a line, median (lowest to highest).\n\n\
         | lines | answered | Hatchyarn | MartyPC's Rust | ratio |\n\
         |---|---|---|---|---|"
    );
    let texts = files::KINDS.map(|(name, kind)| (name, text(kind, LINES)));
    for (name, text) in &texts {
        println!("{}", Inputs::new(name, text).run_row(our_run, their_run)?);
    }
    for (name, text) in &texts {
        println!(
            "{}",
            Inputs::new(name, text).line_row(our_line, their_line)?
        );
    }
    Ok(())
}

fn our_run(text: &[u8], out: &mut [u8]) {
    raw::run(text, out, true);
}

fn their_run(text: &[u8], out: &mut [u8]) {
    filter::answer_text(text, out).expect("the room is 19 bytes a line");
}

fn our_line(line: &[u8], out: &mut [u8; ANSWER]) {
    raw::line(line, out);
}

fn their_line(line: &[u8], out: &mut [u8; ANSWER]) {
    *out = filter::answer_line(line);
}

/// The bytes of a file of that kind.
fn text(kind: Kind, lines: u64) -> Vec<u8> {
    let mut text = Vec::new();
    files::write(kind, lines, &mut text).expect("writing to memory cannot fail");
    text
}

/// The lines of a row.
struct Inputs<'a> {
    name: &'a str,
    text: &'a [u8],
    lines: Vec<&'a [u8]>,
}

impl<'a> Inputs<'a> {
    fn new(name: &'a str, text: &'a [u8]) -> Inputs<'a> {
        let lines = text.split_inclusive(|&byte| byte == b'\n');
        let lines = lines.map(|line| line.strip_suffix(b"\n").unwrap_or(line));
        Inputs {
            name,
            text,
            lines: lines.collect(),
        }
    }

    /// The whole text at once.
    fn run_row(&self, ours: impl AnswersText, theirs: impl AnswersText) -> Row {
        let room = self.lines.len() * ANSWER;
        let [mut one, mut other] = [vec![0; room], vec![0; room]];
        ours(self.text, &mut one);
        theirs(self.text, &mut other);
        let answers = one.chunks(ANSWER).zip(other.chunks(ANSWER));
        for (line, (one, other)) in self.lines.iter().zip(answers) {
            same(line, one, other)?;
        }
        Ok(self.row(
            "as one text",
            || ours(black_box(self.text), black_box(&mut one)),
            || theirs(black_box(self.text), black_box(&mut other)),
        ))
    }

    /// Each line by a call of its own.
    fn line_row(&self, ours: impl AnswersLine, theirs: impl AnswersLine) -> Row {
        for line in &self.lines {
            let [mut one, mut other] = [[0; ANSWER]; 2];
            ours(line, &mut one);
            theirs(line, &mut other);
            same(line, &one, &other)?;
        }
        Ok(self.row(
            "line by line",
            || pass(&self.lines, &ours),
            || pass(&self.lines, &theirs),
        ))
    }

    #[inline(always)]
    fn row(&self, way: &str, ours: impl FnMut(), theirs: impl FnMut()) -> String {
        let (mut ours, mut theirs) = (ours, theirs);
        let count = self.lines.len();
        let Ok([ours, theirs]) = rounds::in_turn(
            ROUNDS,
            || timed(&mut ours, count),
            || timed(&mut theirs, count),
        );
        let ratio = ours.median / theirs.median;
        let name = self.name;
        format!("| {name} | {way} | {ours:.1} | {theirs:.1} | {ratio:.2} |")
    }
}

/// Nanoseconds a line.
#[inline(always)]
fn timed(pass: &mut impl FnMut(), lines: usize) -> Result<f64, Infallible> {
    let start = Instant::now();
    pass();
    Ok(start.elapsed().as_nanos() as f64 / lines as f64)
}

#[inline(always)]
fn pass(lines: &[&[u8]], answers: &impl AnswersLine) {
    let mut out = [0; ANSWER];
    for line in black_box(lines) {
        answers(line, &mut out);
        black_box(&mut out);
    }
}

/// An error shows a line that the two sides answer differently.
fn same(line: &[u8], one: &[u8], other: &[u8]) -> Result<(), String> {
    if one == other {
        return Ok(());
    }
    let [line, one, other] = [line, one, other].map(String::from_utf8_lossy);
    Err(format!(
        "{line}: {} and the Rust's {}",
        one.trim(),
        other.trim()
    ))
}

#[cfg(test)]
mod tests {
    use super::*;

    #[test]
    fn a_row_has_a_cell_for_each_column() {
        let text = text(Kind::Malformed, 100);
        let inputs = Inputs::new("some lines", &text);
        for (row, way) in [
            (inputs.run_row(our_run, their_run), "as one text"),
            (inputs.line_row(our_line, their_line), "line by line"),
        ] {
            let row = row.unwrap();
            assert!(
                row.starts_with(&format!("| some lines | {way} | ")),
                "{row}"
            );
            assert_eq!(row.matches('|').count(), 2 + 3 + 1, "{row}");
        }
    }

    #[test]
    fn a_wrong_answer_is_told_and_nothing_is_timed() {
        let text = text(Kind::Drawn, 100);
        let inputs = Inputs::new("some lines", &text);
        let last_lost = |text: &[u8], out: &mut [u8]| {
            raw::run(&text[..text.len() - 21], out, true);
        };
        assert!(inputs.run_row(last_lost, their_run).is_err());
        let always_zeros = |_: &[u8], out: &mut [u8; ANSWER]| *out = *b"000000000000000000\n";
        assert!(inputs.line_row(always_zeros, their_line).is_err());
    }
}
