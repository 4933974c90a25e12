//! The sections at 16 bits, where only edges and drawn requests can be asked.

use crate::asked::Asked;
use crate::form::Form;
use crate::section::Section;
use oracle::edges;
use oracle::request::Operation;
use std::convert::Infallible;

/// A part is an operation. Those of 8 bits are among them: the quick form has not all of 8 bits.
pub fn at_edges() -> Section {
    let operations: Vec<Operation> = Operation::all().collect();
    let parts = operations.len() as u64;
    Section::of_requests(
        "both widths, every combination of edges",
        parts,
        move |part, tally| {
            let mut take = |request| {
                tally.hold(Asked::from(request));
                Ok::<(), Infallible>(())
            };
            let Ok(()) = edges::each(operations[part as usize], &mut take);
        },
    )
}

/// A part is an operation of 16 bits and a hundred thousand draws of it.
pub fn drawn(form: Form) -> Section {
    let is_word = |operation: &Operation| operation.code().1 & 1 != 0;
    let operations: Vec<Operation> = Operation::all().filter(is_word).collect();
    let parts = operations.len() as u64 * form.choose(200, 10);
    Section::of_requests("16 bits, drawn", parts, move |part, tally| {
        let mut draw = form.draw(6, part);
        let operation = operations[part as usize % operations.len()];
        for _ in 0..100_000 {
            tally.hold(Asked::from(draw.request(&[operation])));
        }
    })
}
