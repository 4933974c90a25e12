//! The inputs of a row, and what the tables call it.

use super::counts::Counts;
use super::refused::RefusedDivide;
use super::table::Named;
use crate::asked::Asked;
use oracle::draw::Draw;
use oracle::request::{Alu, Mode, Operation, Request, Width};
use oracle::Refused;

pub const INPUTS: usize = 4096;

pub struct Drawn {
    pub operation: Operation,
    /// Why all of them are refused, if they are drawn so.
    why: Option<Refused>,
    pub asked: Vec<Asked>,
}

impl Drawn {
    /// Requests for an operation, with these counts if it is a shift or rotate.
    pub fn with_counts(operation: Operation, counts: Counts) -> Drawn {
        Drawn {
            operation,
            why: None,
            asked: inputs(operation, |draw| counts.request(draw, &[operation])),
        }
    }

    /// Divides that are all accepted.
    pub fn accepted(mode: Mode) -> Drawn {
        let operation = Operation::Divide(mode);
        let accepted = |draw: &mut Draw| loop {
            let request = draw.request(&[operation]);
            if Refused::of(mode, request.x(), request.y()).is_none() {
                return request;
            }
        };
        Drawn {
            operation,
            why: None,
            asked: inputs(operation, accepted),
        }
    }

    /// Divides that are all refused for one reason.
    pub fn refused(divide: RefusedDivide) -> Drawn {
        let operation = divide.operation();
        Drawn {
            operation,
            why: Some(divide.why()),
            asked: inputs(operation, |draw| divide.request(draw)),
        }
    }

    /// The name and the bits.
    pub fn named(&self) -> Named {
        let (name, bits) = named(self.operation);
        match self.why {
            Some(why) => (format!("{name}, {why}"), bits),
            None => (name, bits),
        }
    }
}

/// The divides without REP, on which no more than a sign depends.
pub fn divides() -> impl Iterator<Item = Mode> {
    Operation::all().filter_map(|operation| match operation {
        Operation::Divide(mode) if !mode.rep => Some(mode),
        _ => None,
    })
}

/// Drawn from the operation's own numbers, so that a row does not depend on those before it.
fn inputs(operation: Operation, request: impl Fn(&mut Draw) -> Request) -> Vec<Asked> {
    let (op, mode) = operation.code();
    let mut draw = Draw::new(u64::from(op) << 8 | u64::from(mode));
    let one = |_| Asked::from(request(&mut draw));
    (0..INPUTS).map(one).collect()
}

fn named(operation: Operation) -> Named {
    let of_mode = |name: &str, mode: Mode| {
        let sign = if mode.signed { "I" } else { "" };
        let rep = if mode.rep { "REP " } else { "" };
        (format!("{rep}{sign}{name}"), mode.width.bits())
    };
    match operation {
        Operation::Alu(Alu::ShlAf, width) => ("SHL with A".to_string(), width.bits()),
        Operation::Alu(alu, width) => (format!("{alu:?}").to_uppercase(), width.bits()),
        Operation::Multiply(mode) => of_mode("MUL", mode),
        Operation::Divide(mode) => of_mode("DIV", mode),
        Operation::Decimal(decimal) => (format!("{decimal:?}").to_uppercase(), Width::Byte.bits()),
    }
}
