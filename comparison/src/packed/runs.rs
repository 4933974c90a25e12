//! Operands through which a carry or a borrow runs, from any digit to any other.

use super::call::Operation;
use super::digits::packed;
use oracle::draw::Draw;

/// A digit of X and the one of Y beside it.
type Pair = (u8, u8);

/// What pairs of digits do to a carry or a borrow.
struct Pairs {
    start: [Pair; 4],
    hand_on: [Pair; 2],
    stop: [Pair; 4],
}

const ADD: Pairs = Pairs {
    start: [(9, 1), (1, 9), (5, 5), (9, 9)],
    hand_on: [(9, 0), (0, 9)],
    stop: [(0, 0), (8, 0), (0, 8), (4, 4)],
};

const SUBTRACT: Pairs = Pairs {
    start: [(0, 1), (0, 9), (4, 5), (8, 9)],
    hand_on: [(0, 0), (9, 9)],
    stop: [(1, 0), (9, 0), (9, 8), (5, 4)],
};

/// Digits that hand on what comes in, in a string of so many. The digit below them starts a carry or a
/// borrow; where there is none, what is handed in runs through. The digits above them stop it.
#[derive(Clone, Copy, Debug, PartialEq, Eq)]
pub struct Run {
    pub digits: usize,
    pub from: usize,
    /// The first that is not of them.
    pub to: usize,
}

impl Run {
    /// All runs in strings of this many bytes, those of no digit among them.
    pub fn all(length: usize) -> impl Iterator<Item = Run> {
        let digits = 2 * length;
        let starting = move |from| (from..=digits).map(move |to| Run { digits, from, to });
        (0..=digits).flat_map(starting)
    }

    pub fn operands(self, draw: &mut Draw, operation: Operation) -> [Vec<u8>; 2] {
        let pairs = match operation {
            Operation::Add => ADD,
            Operation::Subtract => SUBTRACT,
        };
        let one = |place| {
            if (self.from..self.to).contains(&place) {
                draw.pick(&pairs.hand_on)
            } else if place + 1 == self.from {
                draw.pick(&pairs.start)
            } else {
                draw.pick(&pairs.stop)
            }
        };
        let (x, y): (Vec<u8>, Vec<u8>) = (0..self.digits).map(one).unzip();
        [packed(&x), packed(&y)]
    }
}
