//! Answer lines read back, one after another out of a text and each by itself: the port's functions beside
//! a careful reader for the same promise, and beside one that is written for speed.

use super::rounds;
use super::table::Row;
use crate::answers::call::Call;
use crate::answers::reference::{lines, Record, END};
use crate::answers::walk::Step;
use crate::answers::{careful, tabled, texts};
use crate::lines::model::ANSWER;
use hatchyarn::raw;
use oracle::draw::Draw;
use oracle::request::Operation;
use std::convert::Infallible;
use std::hint::black_box;
use std::time::Instant;

/// Lines in each text.
const LINES: usize = 1_000_000;

const ROUNDS: usize = 51;

/// The two functions of either side. They are no pointers: a call by one would be timed with it.
trait Next: Fn(&[u8], &mut usize, &mut Record, &mut usize) -> u8 {}
trait Read: Fn(&[u8], &mut Record) -> u8 {}

impl<F: Fn(&[u8], &mut usize, &mut Record, &mut usize) -> u8> Next for F {}
impl<F: Fn(&[u8], &mut Record) -> u8> Read for F {}

/// Prints the two tables. An error says where two sides differ.
pub fn print() -> Result<(), String> {
    let texts = [
        ("as a run writes them", written(LINES)),
        ("one of eight malformed", spoilt(LINES)),
    ];
    let careful: [Measured; 2] = [
        |inputs| inputs.next_row(raw::next_answer, careful::next),
        |inputs| inputs.read_row(raw::read_answer, careful::read),
    ];
    let tabled: [Measured; 2] = [
        |inputs| inputs.next_row(raw::next_answer, tabled::next),
        |inputs| inputs.read_row(raw::read_answer, tabled::read),
    ];
    print_beside("plain Rust, digit by digit", &texts, careful)?;
    println!();
    print_beside("plain Rust, by a table", &texts, tabled)
}

/// A way to read lines, measured.
type Measured = fn(&Inputs) -> Row;

/// Prints a table, each row as soon as it is measured.
fn print_beside(
    theirs: &str,
    texts: &[(&'static str, Vec<u8>)],
    ways: [Measured; 2],
) -> Result<(), String> {
    println!(
        "{LINES} lines for each row; {ROUNDS} rounds of one pass over them, the two in turn; nanoseconds \
         a line, median (lowest to highest).\n\n\
         | lines | read | Hatchyarn | {theirs} | ratio |\n\
         |---|---|---|---|---|"
    );
    for row in ways {
        for (name, text) in texts {
            println!("{}", row(&Inputs { name, text })?);
        }
    }
    Ok(())
}

/// What a run writes for drawn requests of all operations.
fn written(lines: usize) -> Vec<u8> {
    let operations: Vec<Operation> = Operation::all().collect();
    let mut draw = Draw::new(1);
    let requests = (0..lines).flat_map(|_| draw.request(&operations).to_line());
    let requests: Vec<u8> = requests.collect();
    let mut answers = vec![0; lines * ANSWER];
    raw::run(&requests, &mut answers, true);
    answers
}

/// The same, but that one line of eight is refused for something.
fn spoilt(lines: usize) -> Vec<u8> {
    let mut draw = Draw::new(2);
    let mut text = Vec::new();
    for line in written(lines).chunks_exact(ANSWER) {
        if draw.below(8) == 0 {
            text.extend(texts::bad_line(&mut draw));
            text.push(b'\n');
        } else {
            text.extend(line);
        }
    }
    text
}

/// The lines of a row.
struct Inputs<'a> {
    name: &'static str,
    text: &'a [u8],
}

impl Inputs<'_> {
    /// One after another out of the text.
    fn next_row(&self, ours: impl Next, theirs: impl Next) -> Row {
        let [mut one, mut other] = [Step::default(); 2];
        while one.status != END {
            let call = Call::Next(self.text, one.place);
            one.take_next(self.text, &ours);
            other.take_next(self.text, &theirs);
            same(call, &one, &other)?;
        }
        Ok(self.row(
            "one after another",
            || pass_next(self.text, &ours),
            || pass_next(self.text, &theirs),
        ))
    }

    /// Each by itself.
    fn read_row(&self, ours: impl Read, theirs: impl Read) -> Row {
        let cut: Vec<&[u8]> = lines(self.text).collect();
        let [mut one, mut other] = [Step::default(); 2];
        for line in &cut {
            one.take_read(line, &ours);
            other.take_read(line, &theirs);
            same(Call::Read(line), &one, &other)?;
        }
        Ok(self.row(
            "each by itself",
            || pass_read(&cut, &ours),
            || pass_read(&cut, &theirs),
        ))
    }

    #[inline(always)]
    fn row(&self, way: &str, ours: impl Fn(), theirs: impl Fn()) -> String {
        let count = lines(self.text).count();
        let timed = |pass: &dyn Fn()| {
            let start = Instant::now();
            pass();
            Ok::<f64, Infallible>(start.elapsed().as_nanos() as f64 / count as f64)
        };
        let Ok([ours, theirs]) = rounds::in_turn(ROUNDS, || timed(&ours), || timed(&theirs));
        let ratio = ours.median / theirs.median;
        let name = self.name;
        format!("| {name} | {way} | {ours:.1} | {theirs:.1} | {ratio:.2} |")
    }
}

/// An error shows a call that the two sides answer differently.
fn same(call: Call, one: &Step, other: &Step) -> Result<(), String> {
    if one == other {
        return Ok(());
    }
    Err(format!("{call}: {one:02X?} and plain Rust's {other:02X?}"))
}

/// Asks one side for every line once, and for the end.
#[inline(always)]
fn pass_next(text: &[u8], function: &impl Next) {
    let mut step = Step::default();
    let text = black_box(text);
    while step.status != END {
        step.take_next(text, function);
        black_box(&mut step);
    }
}

#[inline(always)]
fn pass_read(lines: &[&[u8]], function: &impl Read) {
    let mut step = Step::default();
    for line in black_box(lines) {
        step.take_read(line, function);
        black_box(&mut step);
    }
}

impl Step {
    #[inline(always)]
    fn take_next(&mut self, text: &[u8], function: &impl Next) {
        self.status = function(text, &mut self.place, &mut self.record, &mut self.start);
    }

    #[inline(always)]
    fn take_read(&mut self, line: &[u8], function: &impl Read) {
        self.status = function(line, &mut self.record);
    }
}

#[cfg(test)]
mod tests {
    use super::*;
    use crate::answers::reference::read;

    fn inputs(text: &[u8]) -> Inputs<'_> {
        Inputs {
            name: "some lines",
            text,
        }
    }

    #[test]
    fn a_row_has_a_cell_for_each_column() {
        let text = written(100);
        let inputs = inputs(&text);
        for (row, way) in [
            (
                inputs.next_row(careful::next, tabled::next),
                "one after another",
            ),
            (
                inputs.read_row(careful::read, tabled::read),
                "each by itself",
            ),
        ] {
            let row = row.unwrap();
            assert!(
                row.starts_with(&format!("| some lines | {way} | ")),
                "{row}"
            );
            assert_eq!(row.matches('|').count(), 2 + 3 + 1, "{row}");
        }
    }

    #[test]
    fn a_wrong_answer_is_told_and_nothing_is_timed() {
        let text = written(100);
        let one = inputs(&text).next_row(
            |text, place, record, start| {
                let status = careful::next(text, place, record, start);
                *start = *place;
                status
            },
            careful::next,
        );
        let told = one.unwrap_err();
        assert!(told.starts_with("next answer from place 0 of "), "{told}");
        let other = inputs(&text).read_row(
            |line, record| careful::read(line, record) ^ 1,
            careful::read,
        );
        let told = other.unwrap_err();
        assert!(told.starts_with("answer line "), "{told}");
    }

    /// How many lines there are, and how many of them are read.
    fn counted(text: &[u8]) -> (usize, usize) {
        let is_read = |line: &&[u8]| read(line).is_ok();
        (lines(text).count(), lines(text).filter(is_read).count())
    }

    #[test]
    fn texts_have_the_lines_that_they_are_named_for() {
        assert_eq!(counted(&written(8_000)), (8_000, 8_000));
        let (all, good) = counted(&spoilt(8_000));
        assert_eq!(all, 8_000);
        assert!((6_800..7_200).contains(&good), "{good}");
    }
}
