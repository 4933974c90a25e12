//! Refused divides, by the reason: one reason a row.

use super::drawn::divides;
use oracle::draw::Draw;
use oracle::request::{Mode, Operation, Request, ALL_FLAGS};
use oracle::Refused;

/// A divide and a reason for which some of its operands are refused.
#[derive(Clone, Copy, Debug, PartialEq, Eq)]
pub struct RefusedDivide {
    mode: Mode,
    why: Refused,
}

impl RefusedDivide {
    /// All that there are without REP, which no refusal depends on.
    pub fn all() -> impl Iterator<Item = RefusedDivide> {
        let by_reason = |mode| Refused::ALL.map(|why| RefusedDivide { mode, why });
        let all = divides().flat_map(by_reason);
        all.filter(|divide| divide.mode.signed || divide.why != Refused::SignRange)
    }

    pub fn operation(self) -> Operation {
        Operation::Divide(self.mode)
    }

    pub fn why(self) -> Refused {
        self.why
    }

    /// A drawn request that is refused for this reason, each as likely as another.
    pub fn request(self, draw: &mut Draw) -> Request {
        let operation = self.operation();
        let (x, y) = self.operands(draw);
        let flags = draw.bits() as u16 & ALL_FLAGS;
        Request::new(operation, flags, x, y).expect("what is drawn is admitted")
    }

    /// Drawn until the reason is met. A divisor of 0, which is too rare for that, is given.
    fn operands(self, draw: &mut Draw) -> (u32, u16) {
        let limits = self.operation();
        loop {
            let x = draw.bits() as u32 & limits.x_limit();
            let y = match self.why {
                Refused::ZeroDivisor => 0,
                Refused::TooWide | Refused::SignRange => draw.bits() as u16 & limits.y_limit(),
            };
            if Refused::of(self.mode, x, y) == Some(self.why) {
                return (x, y);
            }
        }
    }
}

#[cfg(test)]
mod tests {
    use super::super::drawn::Drawn;
    use super::*;
    use crate::asked::Asked;
    use crate::sides::theirs;

    #[test]
    fn rows_are_the_ten() {
        let named = |divide| {
            let (name, bits) = Drawn::refused(divide).named();
            format!("{name} {bits}")
        };
        let rows: Vec<String> = RefusedDivide::all().map(named).collect();
        let ten = [
            "DIV, zero divisor 8",
            "DIV, too wide 8",
            "DIV, zero divisor 16",
            "DIV, too wide 16",
            "IDIV, zero divisor 8",
            "IDIV, too wide 8",
            "IDIV, sign range 8",
            "IDIV, zero divisor 16",
            "IDIV, too wide 16",
            "IDIV, sign range 16",
        ];
        assert_eq!(rows, ten);
    }

    #[test]
    fn each_input_is_refused_for_its_reason() {
        for divide in RefusedDivide::all() {
            for asked in Drawn::refused(divide).asked {
                let status = theirs(asked).status;
                assert_eq!(status, divide.why.status(), "{}", asked.line());
            }
        }
    }

    /// The bits that are set in some of the inputs and clear in others.
    fn drawn_bits(asked: &[Asked], of: fn(&Asked) -> u32) -> u32 {
        let numbers = asked.iter().map(of);
        let set = numbers.clone().fold(0, |set, number| set | number);
        let clear = numbers.fold(0, |clear, number| clear | !number);
        set & clear
    }

    #[test]
    fn every_bit_of_flags_and_operands_is_drawn() {
        for divide in RefusedDivide::all() {
            let limits = divide.operation();
            let divisor = match divide.why {
                Refused::ZeroDivisor => 0,
                Refused::TooWide | Refused::SignRange => limits.y_limit(),
            };
            let asked = Drawn::refused(divide).asked;
            assert_eq!(drawn_bits(&asked, |a| a.flags.into()), ALL_FLAGS.into());
            assert_eq!(drawn_bits(&asked, |a| a.x), limits.x_limit());
            assert_eq!(drawn_bits(&asked, |a| a.y.into()), divisor.into());
        }
    }
}
