//! The roads, one call at a time: the port's function as C calls it beside a careful walk in plain Rust, and beside
//! the port's full divide of the same request.

use super::drawn::{divides, Drawn};
use super::refused::RefusedDivide;
use super::table::{self, Named, Row};
use crate::asked::Asked;
use crate::roads::answer::Answer;
use crate::roads::{careful, full, linked};
use crate::sides::{self, names_apart};
use crate::trap::call::Call;
use std::hint::black_box;

/// What counts, as the library's function does. It is no pointer: a call by one would be timed with it.
trait Counts: Fn(u8, u32, u16, &mut [u16; 2]) -> u8 {}

impl<F: Fn(u8, u32, u16, &mut [u16; 2]) -> u8> Counts for F {}

/// Prints the two tables. An error says where two sides differ.
pub fn print() -> Result<(), String> {
    print_beside("divides all accepted", divides().map(Drawn::accepted))?;
    println!();
    let refused = RefusedDivide::all().map(Drawn::refused);
    print_beside("divides all refused for the reason named", refused)
}

fn print_beside(inputs: &str, rows: impl Iterator<Item = Drawn>) -> Result<(), String> {
    let beside = ["plain Rust, the walk", "ratio", "its full divide", "ratio"];
    let columns = [&["bits", "Hatchyarn"], &beside[..]].concat();
    let columns: Vec<String> = columns.into_iter().map(String::from).collect();
    let rows = rows.map(|drawn| Inputs::from(drawn).row(linked::roads, careful::roads));
    table::print(inputs, "the three in turn", &columns, rows)
}

/// The inputs of a row.
struct Inputs {
    named: Named,
    calls: Vec<Call>,
    /// The same as full divides.
    asked: Vec<Asked>,
}

impl From<Drawn> for Inputs {
    fn from(drawn: Drawn) -> Inputs {
        Inputs {
            named: drawn.named(),
            calls: drawn.asked.iter().copied().map(Call::from).collect(),
            asked: drawn.asked,
        }
    }
}

impl Inputs {
    fn row(&self, ours: impl Counts, walk: impl Counts) -> Row {
        self.compare(&ours, &walk)?;
        let [ours, walk, divide] =
            table::three_in_turn([&|| self.pass(&ours), &|| self.pass(&walk), &|| {
                self.pass_divides()
            }]);
        let [beside_walk, beside_divide] = [&walk, &divide].map(|by| ours.median / by.median);
        let cells =
            format!("{ours:.1} | {walk:.1} | {beside_walk:.2} | {divide:.1} | {beside_divide:.2}");
        Ok(table::row(self.named.clone(), &cells))
    }

    /// An error shows the first input of which the walk tells otherwise, or the full divide.
    fn compare(&self, ours: &impl Counts, walk: &impl Counts) -> Result<(), String> {
        for (&call, &asked) in self.calls.iter().zip(&self.asked) {
            let [one, other] = [answer(call, ours), answer(call, walk)];
            if one != other {
                return Err(format!("roads, {call}: {one:?} and the walk's {other:?}"));
            }
            let names = ["status", "ones", "steps"];
            let apart = names_apart(&full::parts(names, call, &one, &sides::ours(asked)));
            if !apart.is_empty() {
                return Err(format!(
                    "roads, {call}: {one:?}, the divide has other {apart}"
                ));
            }
        }
        Ok(())
    }

    /// Has one side count each of the inputs once.
    #[inline(always)]
    fn pass(&self, counts: &impl Counts) {
        for &call in black_box(&self.calls[..]) {
            black_box(answer(call, counts));
        }
    }

    #[inline(always)]
    fn pass_divides(&self) {
        for &asked in black_box(&self.asked[..]) {
            black_box(sides::ours(asked));
        }
    }
}

#[inline(always)]
fn answer(call: Call, counts: &impl Counts) -> Answer {
    let mut roads = [u16::MAX; 2];
    let status = counts(call.mode, call.dividend, call.divisor, &mut roads);
    Answer::new(status, roads)
}

#[cfg(test)]
mod tests {
    use super::super::drawn::INPUTS;
    use super::*;
    use crate::roads::reference;

    fn accepted() -> impl Iterator<Item = Inputs> {
        divides().map(Drawn::accepted).map(Inputs::from)
    }

    #[test]
    fn rows_are_the_four() {
        let named = |inputs: Inputs| format!("{} {}", inputs.named.0, inputs.named.1);
        let rows: Vec<String> = accepted().map(named).collect();
        assert_eq!(rows, ["DIV 8", "DIV 16", "IDIV 8", "IDIV 16"]);
    }

    #[test]
    fn each_input_is_accepted() {
        for inputs in accepted() {
            assert_eq!((inputs.calls.len(), inputs.asked.len()), (INPUTS, INPUTS));
            let mut told = inputs.calls.into_iter().map(reference::answer);
            assert!(told.all(|told| told.status == 0));
        }
    }

    #[test]
    fn a_row_has_a_cell_for_each_column() {
        let inputs = accepted().next().unwrap();
        let row = inputs.row(careful::roads, careful::roads).unwrap();
        assert!(row.starts_with("| DIV | 8 | "), "{row}");
        assert_eq!(row.matches('|').count(), 2 + 5 + 1, "{row}");
    }

    /// One that counts other roads than the walk, and two that agree and are at odds with the full divide.
    #[test]
    fn a_wrong_answer_is_told_and_nothing_is_timed() {
        let inputs = accepted().next().unwrap();
        let exchanged = |mode, dividend, divisor, roads: &mut [u16; 2]| {
            let status = careful::roads(mode, dividend, divisor, roads);
            roads.swap(0, 1);
            status
        };
        let told = inputs.row(exchanged, careful::roads).unwrap_err();
        assert!(told.starts_with("roads, mode 00: "), "{told}");
        assert!(told.contains(" and the walk's "), "{told}");
        let told = inputs.row(exchanged, exchanged).unwrap_err();
        assert!(told.ends_with(", the divide has other steps"), "{told}");
    }
}
