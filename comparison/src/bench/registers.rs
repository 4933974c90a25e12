//! Operations over a register record, one call at a time: the port's function beside its answer by value, put back
//! into the registers in plain Rust, and beside the answer by value alone, as far as the library gives it.

use super::counts::USUAL;
use super::drawn::Drawn;
use super::refused::RefusedDivide;
use super::table::{self, Named, Row};
use crate::asked::Asked;
use crate::registers::call::{Call, Record};
use crate::registers::careful;
use crate::registers::linked;
use crate::registers::operands::{laid_out, operations};
use crate::sides;
use oracle::draw::Draw;
use oracle::request::Operation;
use std::hint::black_box;

/// What works over a record. It is no pointer: a call by one would be timed with it.
trait Operates: Fn(Call, &mut Record, &mut u16) -> u8 {}

impl<F: Fn(Call, &mut Record, &mut u16) -> u8> Operates for F {}

/// Prints the two tables. An error says where two sides differ.
pub fn print() -> Result<(), String> {
    let done = without_rep().map(|operation| Drawn::with_counts(operation, USUAL));
    print_beside("divides mostly accepted", done)?;
    println!();
    let refused = RefusedDivide::all().map(Drawn::refused);
    print_beside("divides all refused for the reason named", refused)
}

/// REP changes no more than a sign and a few steps.
fn without_rep() -> impl Iterator<Item = Operation> {
    let is_plain = |operation: &Operation| match operation {
        Operation::Multiply(mode) | Operation::Divide(mode) => !mode.rep,
        _ => true,
    };
    operations().into_iter().filter(is_plain)
}

fn print_beside(inputs: &str, rows: impl Iterator<Item = Drawn>) -> Result<(), String> {
    let beside = ["by value, put back", "ratio", "by value alone", "ratio"];
    let columns = [&["bits", "over the record"], &beside[..]].concat();
    let columns: Vec<String> = columns.into_iter().map(String::from).collect();
    let rows = rows.map(|drawn| Inputs::from(drawn).row(ours, careful::operate));
    table::print(inputs, "the three in turn", &columns, rows)
}

#[inline(always)]
fn ours(call: Call, record: &mut Record, steps: &mut u16) -> u8 {
    linked::registers(
        call,
        &mut record.ax,
        &mut record.dx,
        &mut record.flags,
        &mut record.total,
        steps,
    )
}

/// The inputs of a row: each call has a record of its own, and none goes on with what another has left.
struct Inputs {
    named: Named,
    calls: Vec<(Call, Record)>,
    /// The same by value.
    asked: Vec<Asked>,
}

impl From<Drawn> for Inputs {
    fn from(drawn: Drawn) -> Inputs {
        let mut draw = Draw::new(1);
        let mut over = |asked: &Asked| {
            let request = asked.judged().expect("what is drawn is admitted");
            laid_out(&mut draw, request)
        };
        Inputs {
            named: drawn.named(),
            calls: drawn.asked.iter().map(&mut over).collect(),
            asked: drawn.asked,
        }
    }
}

impl Inputs {
    /// An error says that the two sides leave different records.
    fn row(&self, ours: impl Operates, put_back: impl Operates) -> Row {
        let over = || black_box(self.sum_over(&ours));
        let back = || black_box(self.sum_over(&put_back));
        let alone = || black_box(self.sum_alone());
        if over() != back() {
            let (name, bits) = &self.named;
            return Err(format!(
                "{name} {bits}: the two sides leave different records"
            ));
        }
        let [over, back, alone] =
            table::three_in_turn([&|| _ = over(), &|| _ = back(), &|| _ = alone()]);
        let [beside_back, beside_alone] = [&back, &alone].map(|by| over.median / by.median);
        let cells =
            format!("{over:.1} | {back:.1} | {beside_back:.2} | {alone:.1} | {beside_alone:.2}");
        Ok(table::row(self.named.clone(), &cells))
    }

    /// Does all and folds all that is left, so that nothing can be left out. The record stands in memory for both
    /// sides, as a program has it.
    #[inline(always)]
    fn sum_over(&self, operates: &impl Operates) -> u64 {
        let calls = black_box(&self.calls[..]).iter();
        calls.fold(0, |sum: u64, &(call, mut record)| {
            let mut steps = 0;
            let status = operates(call, black_box(&mut record), &mut steps);
            let low = u64::from(record.ax) | u64::from(record.dx) << 16;
            let high = u64::from(record.flags) << 32 | u64::from(steps) << 48;
            let total = u64::from(record.total) << 8 | u64::from(status);
            (sum.rotate_left(5) ^ (low | high)).wrapping_add(total)
        })
    }

    #[inline(always)]
    fn sum_alone(&self) -> u64 {
        let asked = black_box(&self.asked[..]).iter();
        asked.fold(0, |sum: u64, &asked| {
            let given = sides::ours(asked);
            let low = u64::from(given.r) | u64::from(given.s) << 16;
            let high = u64::from(given.flags) << 32 | u64::from(given.steps) << 48;
            (sum.rotate_left(5) ^ (low | high)).wrapping_add(given.status.into())
        })
    }
}

#[cfg(test)]
mod tests {
    use super::super::drawn::INPUTS;
    use super::*;
    use crate::registers::reference::outcome;

    fn inputs(operation: Operation) -> Inputs {
        Inputs::from(Drawn::with_counts(operation, USUAL))
    }

    #[test]
    fn rows_are_the_thirteen() {
        let named = |operation| {
            let (name, bits) = inputs(operation).named;
            format!("{name} {bits}")
        };
        let rows: Vec<String> = without_rep().map(named).collect();
        let thirteen = [
            "MUL 8", "MUL 16", "IMUL 8", "IMUL 16", "DIV 8", "DIV 16", "IDIV 8", "IDIV 16",
            "AAA 8", "AAS 8", "AAD 8", "DAA 8", "DAS 8",
        ];
        assert_eq!(rows, thirteen);
    }

    /// Every call is admitted, and reads from its record what is asked by value.
    #[test]
    fn each_record_has_what_is_asked() {
        for operation in without_rep() {
            let Inputs { calls, asked, .. } = inputs(operation);
            assert_eq!((calls.len(), asked.len()), (INPUTS, INPUTS));
            for (&(call, record), asked) in calls.iter().zip(asked) {
                assert_eq!(call.asked(record), asked);
                assert!(matches!(outcome(call, record).status, 0 | 6 | 8 | 9));
            }
        }
    }

    #[test]
    fn a_row_has_a_cell_for_each_column() {
        let row = inputs(operations()[0]).row(ours, careful::operate).unwrap();
        assert!(row.starts_with("| MUL | 8 | "), "{row}");
        assert_eq!(row.matches('|').count(), 2 + 5 + 1, "{row}");
    }

    /// Whichever number it is that differs.
    #[test]
    fn a_wrong_record_is_told_and_nothing_is_timed() {
        let wrong: [fn(&mut Record, &mut u16); 5] = [
            |record, _| record.ax ^= 1,
            |record, _| record.dx ^= 1,
            |record, _| record.flags ^= 1,
            |record, _| record.total ^= 1,
            |_, steps| *steps ^= 1,
        ];
        for wrong in wrong {
            let operates = |call: Call, record: &mut Record, steps: &mut u16| {
                let status = careful::operate(call, record, steps);
                wrong(record, steps);
                status
            };
            let told = inputs(operations()[0]).row(operates, careful::operate);
            assert_eq!(
                told.unwrap_err(),
                "MUL 8: the two sides leave different records"
            );
        }
    }
}
