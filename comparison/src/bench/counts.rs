//! The counts of shifts and rotates: how long they are in a table or a file.

use oracle::draw::Draw;
use oracle::request::{Operation, Request};
use std::fmt;

#[derive(Clone, Copy, Debug, PartialEq, Eq)]
pub enum Counts {
    /// From 0 to this, each as likely as another.
    UpTo(u8),
    Always(u8),
}

/// What an 8088's programmer has counts of.
pub const USUAL: Counts = Counts::UpTo(31);

/// All that there are: an 8088 does not mask them.
pub const FULL: Counts = Counts::UpTo(u8::MAX);

/// The longest way: MartyPC's functions are written as loops with a round for each step of a count.
pub const MOST: Counts = Counts::Always(u8::MAX);

/// Whether Y is a count: the shifts and rotates.
pub fn has_count(operation: &Operation) -> bool {
    matches!(operation, Operation::Alu(alu, _) if alu.counts())
}

impl Counts {
    /// A drawn request for one of the operations. Its Y is one of these counts where it is a count,
    /// and all else is as the draw gives it.
    pub fn request(self, draw: &mut Draw, operations: &[Operation]) -> Request {
        let drawn = draw.request(operations);
        let operation = drawn.operation();
        if !has_count(&operation) {
            return drawn;
        }
        let count = u16::from(self.one(draw));
        Request::new(operation, drawn.flags(), drawn.x(), count).expect("every count is admitted")
    }

    fn one(self, draw: &mut Draw) -> u8 {
        match self {
            Counts::UpTo(most) => draw.below(u32::from(most) + 1) as u8,
            Counts::Always(count) => count,
        }
    }
}

impl fmt::Display for Counts {
    fn fmt(&self, out: &mut fmt::Formatter) -> fmt::Result {
        match self {
            Counts::UpTo(most) => write!(out, "0 to {most}"),
            Counts::Always(count) => write!(out, "{count}"),
        }
    }
}

#[cfg(test)]
mod tests {
    use super::*;
    use oracle::request::{Alu, Width};
    use std::collections::BTreeSet;

    /// So many draws that each of 256 counts is met.
    const DRAWN: usize = 10_000;

    fn requests(counts: Counts, operation: Operation) -> Vec<Request> {
        let mut draw = Draw::new(1);
        let one = |_| counts.request(&mut draw, &[operation]);
        (0..DRAWN).map(one).collect()
    }

    fn met(counts: Counts, operation: Operation) -> BTreeSet<u16> {
        let requests = requests(counts, operation);
        requests.iter().map(Request::y).collect()
    }

    #[test]
    fn shifts_and_rotates_have_the_counts_told_and_all_of_them() {
        for operation in Operation::all().filter(has_count) {
            assert_eq!(met(USUAL, operation), (0..=31).collect());
            assert_eq!(met(FULL, operation), (0..=255).collect());
            assert_eq!(met(Counts::Always(1), operation), BTreeSet::from([1]));
            assert_eq!(met(MOST, operation), BTreeSet::from([255]));
        }
    }

    #[test]
    fn shifts_and_rotates_are_eight_at_two_widths() {
        let counted: Vec<Operation> = Operation::all().filter(has_count).collect();
        assert_eq!(counted.len(), 16);
        assert_eq!(counted[0], Operation::Alu(Alu::Shl, Width::Byte));
        assert_eq!(counted[15], Operation::Alu(Alu::ShlAf, Width::Word));
    }

    #[test]
    fn all_else_does_not_depend_on_the_count_that_is_always_given() {
        let rest = |request: &Request| (request.operation(), request.flags(), request.x());
        for operation in Operation::all().filter(has_count) {
            let [one, most] = [1, 255].map(|count| requests(Counts::Always(count), operation));
            assert!(one.iter().map(rest).eq(most.iter().map(rest)));
        }
    }

    #[test]
    fn an_operation_without_a_count_is_left_as_drawn() {
        for operation in Operation::all().filter(|operation| !has_count(operation)) {
            let mut draw = Draw::new(1);
            let drawn = || draw.request(&[operation]);
            let drawn: Vec<Request> = std::iter::repeat_with(drawn).take(DRAWN).collect();
            assert_eq!(requests(MOST, operation), drawn);
        }
    }
}
