//! Tables of times by the operation, in nanoseconds a call.

use super::counts::{has_count, FULL, USUAL};
use super::drawn::{Drawn, INPUTS};
use super::refused::RefusedDivide;
use super::rounds::{self, Spread};
use oracle::request::Operation;
use std::convert::Infallible;
use std::time::Instant;

/// Rounds are short, so that few of them are cut in two by other work on the machine.
const PASSES: usize = 2;
const ROUNDS: usize = 201;
const CALLS: usize = INPUTS * PASSES;

/// A line of a table, or where the two sides differ.
pub type Row = Result<String, String>;

/// What a row is of: the operation, and its size in bits or in bytes.
pub type Named = (String, u32);

/// The columns of the operations that MartyPC has: their size, and who is timed beside the port.
const BESIDE_MARTYPC: [&str; 2] = ["bits", "MartyPC's Rust"];

/// Prints the two tables of both sides beside each other: all operations, then the shifts and
/// rotates again with longer counts.
pub fn print_beside(row: impl Fn(Drawn) -> Row) -> Result<(), String> {
    let inputs = format!("counts of shifts {USUAL}, divides mostly accepted");
    let all = Operation::all().map(|operation| Drawn::with_counts(operation, USUAL));
    print_sides(&inputs, BESIDE_MARTYPC, all.map(&row))?;
    println!();
    let inputs = format!("counts of shifts {FULL}");
    let shifts = Operation::all().filter(has_count);
    let shifts = shifts.map(|operation| Drawn::with_counts(operation, FULL));
    print_sides(&inputs, BESIDE_MARTYPC, shifts.map(&row))
}

/// Prints the table of refused divides, both sides beside each other.
pub fn print_refused(row: impl Fn(Drawn) -> Row) -> Result<(), String> {
    let divides = RefusedDivide::all().map(Drawn::refused);
    let inputs = "divides all refused for the reason named";
    print_sides(inputs, BESIDE_MARTYPC, divides.map(row))
}

/// Prints a table of both sides beside each other.
pub fn print_sides(
    inputs: &str,
    [size, other]: [&str; 2],
    rows: impl Iterator<Item = Row>,
) -> Result<(), String> {
    let columns = [size, "Hatchyarn", other, "ratio"].map(String::from);
    print(inputs, "the two in turn", &columns, rows)
}

/// Prints a table, each row as soon as it is measured.
pub fn print(
    inputs: &str,
    turns: &str,
    columns: &[String],
    rows: impl Iterator<Item = Row>,
) -> Result<(), String> {
    println!(
        "{INPUTS} drawn inputs for each row, {inputs}; {ROUNDS} rounds of {CALLS} calls, {turns}; \
         nanoseconds a call, median (lowest to highest).\n\n\
         | operation | {} |\n\
         |---{}|",
        columns.join(" | "),
        "|---".repeat(columns.len())
    );
    for row in rows {
        println!("{}", row?);
    }
    Ok(())
}

/// Measures both sides on what is drawn.
#[inline(always)]
pub fn beside(named: Named, ours: impl Fn(), theirs: impl Fn()) -> String {
    let [ours, theirs] = in_turn(ours, theirs);
    let ratio = ours.median / theirs.median;
    row(named, &format!("{ours:.1} | {theirs:.1} | {ratio:.2}"))
}

pub fn row((name, size): Named, cells: &str) -> String {
    format!("| {name} | {size} | {cells} |")
}

/// The nanoseconds a call of two passes. A pass asks each of its inputs once.
#[inline(always)]
pub fn in_turn(one: impl Fn(), other: impl Fn()) -> [Spread; 2] {
    let Ok(times) = rounds::in_turn(ROUNDS, || timed(&one), || timed(&other));
    times
}

/// The same of three passes. A call by a pointer to a pass is not seen beside the calls of the pass.
pub fn three_in_turn([one, two, three]: [&dyn Fn(); 3]) -> [Spread; 3] {
    let timed = |pass: &dyn Fn()| {
        let Ok(time) = timed(pass);
        time
    };
    rounds::all_in_turn(ROUNDS, [&|| timed(one), &|| timed(two), &|| timed(three)])
}

#[inline(always)]
fn timed(pass: impl Fn()) -> Result<f64, Infallible> {
    let start = Instant::now();
    for _ in 0..PASSES {
        pass();
    }
    Ok(start.elapsed().as_nanos() as f64 / CALLS as f64)
}
