//! A short count beside a long one on the same side, which shows whether time grows with the count.

use super::pair::{Input, Measured, Pair};
use super::row;
use super::told::Told;
use crate::bench::counts::{has_count, Counts, MOST};
use crate::bench::drawn::Drawn;
use crate::bench::table::{self, Row};
use oracle::request::Operation;
use std::mem::MaybeUninit;

const SHORT: Counts = Counts::Always(1);
const LONG: Counts = MOST;

/// Prints the table. An error says where the two sides differ.
pub fn print() -> Result<(), String> {
    let inputs = format!("the same with a count of {SHORT} and with one of {LONG}");
    let turns = "the two counts of a side in turn";
    let side = |name: &str| {
        let short = format!("{name}, count {SHORT}");
        let long = format!("count {LONG}");
        [short, long, format!("ratio {LONG} / {SHORT}")]
    };
    let sides = ["Hatchyarn", "MartyPC's Rust"].map(side).concat();
    let columns = [vec!["bits".to_string()], sides].concat();
    let shifts = Operation::all().filter(has_count);
    let rows = shifts.map(|operation| row(operation, &ByCount::new(operation)));
    table::print(&inputs, turns, &columns, rows)
}

/// The row of the two counts on either side.
struct ByCount {
    short: Pair,
    long: Pair,
}

impl ByCount {
    fn new(operation: Operation) -> ByCount {
        let pair = |counts| Pair::new(Drawn::with_counts(operation, counts));
        ByCount {
            short: pair(SHORT),
            long: pair(LONG),
        }
    }

    /// The cells of one side.
    #[inline(always)]
    fn cells<R>(&self, call: impl Fn(&Input, &mut MaybeUninit<R>)) -> String {
        let [short, long] = table::in_turn(|| pass(&self.short, &call), || pass(&self.long, &call));
        let ratio = long.median / short.median;
        format!("{short:.1} | {long:.1} | {ratio:.2}")
    }
}

/// One loop for both counts, and not a copy for each: where a loop stands moves its time.
#[inline(never)]
fn pass<R>(pair: &Pair, call: impl Fn(&Input, &mut MaybeUninit<R>)) {
    pair.pass(call);
}

impl Measured for ByCount {
    fn row<R: Told, S: Told>(
        &self,
        ours: impl Fn(&Input, &mut MaybeUninit<R>),
        theirs: impl Fn(&Input, &mut MaybeUninit<S>),
    ) -> Row {
        self.short.compare(&ours, &theirs)?;
        self.long.compare(&ours, &theirs)?;
        let (ours, theirs) = (self.cells(ours), self.cells(theirs));
        let cells = format!("{ours} | {theirs}");
        Ok(table::row(self.short.drawn.named(), &cells))
    }
}

#[cfg(test)]
mod tests {
    use super::super::given::ResultCo;
    use super::super::martypc;
    use super::*;
    use oracle::request::{Alu, Width};

    #[test]
    fn a_row_has_a_cell_for_each_column() {
        let call = |input: &Input, out: &mut MaybeUninit<ResultCo<u8>>| {
            martypc::alu_rcl(out, input.x as u8, input.y as u8, input.carry);
        };
        let by_count = ByCount::new(Operation::Alu(Alu::Rcl, Width::Byte));
        let row = by_count.row(call, call).unwrap();
        assert_eq!(row.matches('|').count(), 2 + 6 + 1, "{row}");
    }

    #[test]
    fn an_answer_that_is_wrong_for_the_long_count_alone_is_told() {
        let right = |input: &Input, out: &mut MaybeUninit<ResultCo<u8>>| {
            martypc::alu_rcl(out, input.x as u8, input.y as u8, input.carry);
        };
        let masked = |input: &Input, out: &mut MaybeUninit<ResultCo<u8>>| {
            martypc::alu_rcl(out, input.x as u8, input.y as u8 & 31, input.carry);
        };
        let by_count = ByCount::new(Operation::Alu(Alu::Rcl, Width::Byte));
        let told = by_count.row(masked, right).unwrap_err();
        assert!(told.starts_with("0A00"), "{told}");
        assert!(told.contains("00FF: "), "{told}");
    }
}
