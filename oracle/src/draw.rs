//! Makes requests from a seed, so that a comparison over many of them can be
//! run again exactly.

use crate::edges::{self, Composed, COUNTS};
use crate::request::{Alu, Decimal, Mode, Operation, Request, Width, ALL_FLAGS};

/// A source of requests. The same seed gives the same requests on any machine.
#[derive(Clone, Debug)]
pub struct Draw {
    state: u64,
}

impl Draw {
    pub fn new(seed: u64) -> Draw {
        Draw { state: seed }
    }

    /// A request for one of the operations named, each as likely as another.
    /// There must be at least one.
    pub fn request(&mut self, operations: &[Operation]) -> Request {
        let operation = self.pick(operations);
        let (x, y) = match operation {
            Operation::Alu(Alu::Neg, width) => (self.operand(width), 0),
            Operation::Alu(alu, width) if alu.counts() => (self.operand(width), self.count()),
            Operation::Alu(_, width) => (self.operand(width), self.operand(width) as u16),
            Operation::Multiply(Mode { width, .. }) => {
                (self.operand(width), self.operand(width) as u16)
            }
            Operation::Divide(mode) => self.divide(mode),
            Operation::Decimal(Decimal::Aad) => {
                (self.pair(Width::Byte), self.operand(Width::Byte) as u16)
            }
            Operation::Decimal(_) => (self.pair(Width::Byte), 0),
        };
        let flags = self.bits() as u16 & ALL_FLAGS;
        Request::new(operation, flags, x, y).expect("what is drawn is admitted")
    }

    /// The next 64 bits, by the splitmix64 generator.
    pub fn bits(&mut self) -> u64 {
        self.state = self.state.wrapping_add(0x9E37_79B9_7F4A_7C15);
        let mut mixed = self.state;
        mixed = (mixed ^ (mixed >> 30)).wrapping_mul(0xBF58_476D_1CE4_E5B9);
        mixed = (mixed ^ (mixed >> 27)).wrapping_mul(0x94D0_49BB_1331_11EB);
        mixed ^ (mixed >> 31)
    }

    /// A number below the bound, each as likely as another. The bound is not 0.
    pub fn below(&mut self, bound: u32) -> u32 {
        (((self.bits() >> 32) * u64::from(bound)) >> 32) as u32
    }

    fn coin(&mut self) -> bool {
        self.bits() >> 63 != 0
    }

    /// One of a list, each as likely as another. The list is not empty.
    pub fn pick<T: Copy>(&mut self, list: &[T]) -> T {
        list[self.below(list.len() as u32) as usize]
    }

    /// Half at an edge or beside one, half even over the width.
    fn operand(&mut self, width: Width) -> u32 {
        let value = if self.coin() {
            let edge = u32::from(self.pick(edges::of(width)));
            match self.below(4) {
                0 => edge.wrapping_sub(1),
                1 => edge + 1,
                _ => edge,
            }
        } else {
            self.bits() as u32
        };
        value & width.largest()
    }

    /// Two operands side by side: AX, or a dividend by its halves.
    fn pair(&mut self, half: Width) -> u32 {
        self.operand(half) << half.bits() | self.operand(half)
    }

    fn count(&mut self) -> u16 {
        if self.coin() {
            self.pick(&COUNTS)
        } else {
            self.below(256) as u16
        }
    }

    /// Most divides are made from their outcome, because a dividend drawn
    /// evenly is refused more often than not.
    fn divide(&mut self, mode: Mode) -> (u32, u16) {
        match self.below(16) {
            0 => (self.pair(mode.width), 0),
            1 | 2 => (self.pair(mode.width), self.operand(mode.width) as u16),
            _ => self.outcome(mode),
        }
    }

    /// The operands of an outcome. Where no dividend is so large, another is
    /// drawn.
    fn outcome(&mut self, mode: Mode) -> (u32, u16) {
        loop {
            if let Some(operands) = self.composed(mode).operands(mode) {
                return operands;
            }
        }
    }

    /// Of sixteen quotients seven stand at the ends or middle of their range,
    /// and one past it, where a refusal begins or ends.
    fn composed(&mut self, mode: Mode) -> Composed {
        let quotient = match self.below(16) {
            0 => self.pick(edges::refused_quotients(mode)),
            1..=7 => self.pick(&edges::quotients(mode)),
            _ => self.below(edges::past(mode)),
        };
        let divisor = self.operand(mode.width).max(1) as u16;
        let bound = edges::magnitude(mode, divisor);
        let remainder = match self.below(4) {
            0 => 0,
            1 => bound - 1,
            _ => self.below(bound),
        };
        Composed {
            quotient,
            divisor,
            remainder,
            dividend_negative: self.coin(),
            divisor_negative: self.coin(),
        }
    }
}
