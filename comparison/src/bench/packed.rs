//! Packed digits, one call at a time: the port's functions beside a careful loop for the same promise, and
//! beside one that is written for speed.

use super::drawn::INPUTS;
use super::table::{self, Row};
use crate::packed::call::{Call, Operation};
use crate::packed::careful;
use crate::packed::reference::LONGEST;
use crate::packed::strings::any;
use crate::packed::tabled;
use hatchyarn::raw;
use oracle::draw::Draw;
use std::hint::black_box;

/// How many bytes an operand has.
const SIZES: [usize; 3] = [4, 16, 32];

/// A function of either side. It is no pointer: a call by one would be timed with it.
trait Timed: Fn(&[u8], &[u8], bool, &mut [u8], &mut u8) -> u8 {}

impl<F: Fn(&[u8], &[u8], bool, &mut [u8], &mut u8) -> u8> Timed for F {}

/// Prints the two tables. An error says where two sides differ.
pub fn print() -> Result<(), String> {
    print_beside("plain Rust, one pass", beside_careful)?;
    println!();
    print_beside("plain Rust, two passes and a table", beside_tabled)
}

fn print_beside(theirs: &str, row: impl Fn(Inputs) -> Row) -> Result<(), String> {
    let of_sizes = |operation| SIZES.map(|bytes| (operation, bytes));
    let rows = Operation::ALL.into_iter().flat_map(of_sizes);
    let rows = rows.map(|(operation, bytes)| row(Inputs::draw(operation, bytes)));
    let inputs = "each digit as likely as another";
    table::print_sides(inputs, ["bytes", theirs], rows)
}

fn beside_careful(inputs: Inputs) -> Row {
    match inputs.operation {
        Operation::Add => inputs.row(raw::packed_add, careful::add),
        Operation::Subtract => inputs.row(raw::packed_subtract, careful::subtract),
    }
}

fn beside_tabled(inputs: Inputs) -> Row {
    match inputs.operation {
        Operation::Add => inputs.row(raw::packed_add, tabled::add),
        Operation::Subtract => inputs.row(raw::packed_subtract, tabled::subtract),
    }
}

/// The inputs of a row, all operands of one size behind one another.
struct Inputs {
    operation: Operation,
    bytes: usize,
    x: Vec<u8>,
    y: Vec<u8>,
    carries: Vec<bool>,
}

/// All that a call answers.
#[derive(Debug, Default, PartialEq, Eq)]
struct Answer {
    status: u8,
    out: [u8; LONGEST],
    carry: u8,
}

impl Inputs {
    fn draw(operation: Operation, bytes: usize) -> Inputs {
        let mut draw = Draw::new(bytes as u64);
        Inputs {
            operation,
            bytes,
            x: any(&mut draw, INPUTS * bytes),
            y: any(&mut draw, INPUTS * bytes),
            carries: (0..INPUTS).map(|_| draw.below(2) == 0).collect(),
        }
    }

    fn each(&self) -> impl Iterator<Item = Call<'_>> {
        let [x, y] = [&self.x, &self.y].map(|all| all.chunks_exact(self.bytes));
        let inputs = x.zip(y).zip(&self.carries);
        inputs.map(|((x, y), &carry)| Call::new(self.operation, x, y, carry))
    }

    fn row(&self, ours: impl Timed, theirs: impl Timed) -> Row {
        self.compare(&ours, &theirs)?;
        let named = (self.operation.to_string(), self.bytes as u32);
        Ok(table::beside(
            named,
            || self.pass(&ours),
            || self.pass(&theirs),
        ))
    }

    /// An error shows the first input that the two sides answer differently.
    fn compare(&self, ours: &impl Timed, theirs: &impl Timed) -> Result<(), String> {
        for call in self.each() {
            let [mut one, mut other] = [Answer::default(), Answer::default()];
            one.take(call, ours);
            other.take(call, theirs);
            if one != other {
                return Err(format!("{call}: {one:02X?} and plain Rust's {other:02X?}"));
            }
        }
        Ok(())
    }

    /// Asks one side each of the inputs once.
    #[inline(always)]
    fn pass(&self, function: &impl Timed) {
        let mut answer = Answer::default();
        for call in black_box(self).each() {
            answer.take(call, function);
            black_box(&mut answer);
        }
    }
}

impl Answer {
    #[inline(always)]
    fn take(&mut self, call: Call, function: &impl Timed) {
        let out = &mut self.out[..call.room];
        self.status = function(call.x, call.y, call.carry, out, &mut self.carry);
    }
}

#[cfg(test)]
mod tests {
    use super::*;

    #[test]
    fn a_row_has_a_cell_for_each_column() {
        let row = Inputs::draw(Operation::Add, 4).row(careful::add, careful::add);
        let row = row.unwrap();
        assert!(row.starts_with("| add | 4 | "), "{row}");
        assert_eq!(row.matches('|').count(), 2 + 3 + 1, "{row}");
    }

    #[test]
    fn a_wrong_answer_is_told_and_nothing_is_timed() {
        let inputs = Inputs::draw(Operation::Add, 4);
        let told = inputs.row(
            |x, y, _, out, carry| careful::add(x, y, false, out, carry),
            careful::add,
        );
        let told = told.unwrap_err();
        assert!(told.starts_with("packed add, "), "{told}");
        assert!(told.contains(", carry true, "), "{told}");
    }

    #[test]
    fn every_input_is_admitted() {
        for bytes in SIZES {
            let inputs = Inputs::draw(Operation::Subtract, bytes);
            assert_eq!(inputs.each().count(), INPUTS);
            for call in inputs.each() {
                let mut answer = Answer::default();
                answer.take(call, &careful::subtract);
                assert_eq!((answer.status, call.x.len()), (0, bytes));
            }
        }
    }
}
