//! Bare functions: each of the port's beside MartyPC's of the same name, with nothing around them.

mod by_count;
pub mod given;
mod leaves;
pub mod martypc;
mod pair;
pub mod port;
mod processor;
mod told;
mod trap;

use super::drawn::Drawn;
use super::table::{self, Row};
use oracle::request::{Operation, Width};
use pair::{Measured, Pair};

/// Prints the tables. An error says where the two sides differ.
pub fn print() -> Result<(), String> {
    table::print_beside(beside)?;
    println!();
    by_count::print()?;
    println!();
    table::print_refused(beside)?;
    println!();
    trap::print()
}

fn beside(drawn: Drawn) -> Row {
    row(drawn.operation, &Pair::new(drawn))
}

fn row(operation: Operation, pair: &impl Measured) -> Row {
    match operation {
        Operation::Alu(alu, Width::Byte) => leaves::byte(pair, alu),
        Operation::Alu(alu, Width::Word) => leaves::word(pair, alu),
        Operation::Multiply(mode) => processor::multiply(pair, mode),
        Operation::Divide(mode) => processor::divide(pair, mode),
        Operation::Decimal(decimal) => processor::adjust(pair, decimal),
    }
}
