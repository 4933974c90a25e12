//! Keys that are divided by a number, and what tells of each whether that would trap.

use super::counts::USUAL;
use super::drawn::{divides, Drawn, INPUTS};
use super::table::{self, Named, Row};
use crate::asked::Asked;
use crate::trap::call::{Answer, Call};
use crate::trap::held::UNWRITTEN;
use crate::trap::reference::traps;
use oracle::draw::Draw;
use oracle::request::{Mode, Operation};
use std::hint::black_box;

/// The divisor of a page; at 8 bits its lower half. A fourth to two fifths of all keys do not trap by it.
const DIVISOR: u16 = 0x6B3D;

/// What tells of a key, as the library's function does. It is no pointer: a call by one would be timed with it.
pub trait Tells: Fn(Call, &mut u8) -> u8 {}

impl<F: Fn(Call, &mut u8) -> u8> Tells for F {}

/// The inputs of a row, all of one mode.
pub struct Keys {
    named: Named,
    pub calls: Vec<Call>,
}

impl Keys {
    /// Of each divide without REP, which changes nothing: keys with divisors as divides are drawn, a page of
    /// keys by one divisor of which half would trap, and one of which all would.
    pub fn all() -> impl Iterator<Item = Keys> {
        divides().flat_map(|mode| {
            let half = Keys::page(mode, "a page, half trap", |draw| draw.below(2) == 0);
            let all = Keys::page(mode, "a page, all trap", |_| true);
            [Keys::drawn(mode), half, all]
        })
    }

    fn drawn(mode: Mode) -> Keys {
        let drawn = Drawn::with_counts(Operation::Divide(mode), USUAL);
        let calls = drawn.asked.iter().copied().map(Call::from).collect();
        Keys::new(drawn.named(), "drawn", calls)
    }

    /// Keys are drawn until they trap or not, as they should, so that no order of them can be learnt.
    fn page(mode: Mode, kind: &str, should_trap: impl Fn(&mut Draw) -> bool) -> Keys {
        let divide = Operation::Divide(mode);
        let (mut draw, (_, code)) = (Draw::new(1), divide.code());
        let mut key = |should: bool| loop {
            let call = Call {
                mode: code,
                dividend: draw.bits() as u32 & divide.x_limit(),
                divisor: DIVISOR & divide.y_limit(),
            };
            if traps(call) == should {
                return call;
            }
        };
        let mut coin = Draw::new(2);
        let calls = (0..INPUTS).map(|_| key(should_trap(&mut coin))).collect();
        let named = Drawn::with_counts(divide, USUAL).named();
        Keys::new(named, kind, calls)
    }

    fn new((name, bits): Named, kind: &str, calls: Vec<Call>) -> Keys {
        Keys {
            named: (format!("{name}, {kind}"), bits),
            calls,
        }
    }

    /// An error shows the first key of which the two sides tell otherwise.
    pub fn row(&self, ours: impl Tells, theirs: impl Tells) -> Row {
        for &call in &self.calls {
            let [one, other] = [answer(call, &ours), answer(call, &theirs)];
            if one != other {
                return Err(format!(
                    "would trap, {call}: {one:?} and the other's {other:?}"
                ));
            }
        }
        Ok(table::beside(
            self.named.clone(),
            || self.pass(&ours),
            || self.pass(&theirs),
        ))
    }

    /// Asks one side of each key once.
    #[inline(always)]
    fn pass(&self, tells: &impl Tells) {
        for &call in black_box(&self.calls[..]) {
            black_box(answer(call, tells));
        }
    }
}

#[inline(always)]
fn answer(call: Call, tells: &impl Tells) -> Answer {
    let mut trap = UNWRITTEN;
    let status = tells(call, &mut trap);
    Answer { status, trap }
}

impl From<Asked> for Call {
    /// Takes the op for that of a divide. The flags do not matter.
    fn from(asked: Asked) -> Call {
        Call {
            mode: asked.mode,
            dividend: asked.x,
            divisor: asked.y,
        }
    }
}

#[cfg(test)]
mod tests {
    use super::*;
    use crate::trap::careful::would_trap;

    fn careful(call: Call, trap: &mut u8) -> u8 {
        would_trap(call.mode, call.dividend, call.divisor, trap)
    }

    #[test]
    fn rows_are_the_twelve() {
        let rows: Vec<Named> = Keys::all().map(|keys| keys.named).collect();
        assert_eq!(rows.len(), 12);
        assert_eq!(rows[0], ("DIV, drawn".to_string(), 8));
        assert_eq!(rows[11], ("IDIV, a page, all trap".to_string(), 16));
    }

    /// Most drawn keys do not trap, as divides are drawn.
    #[test]
    fn keys_trap_as_their_name_says() {
        for keys in Keys::all() {
            assert_eq!(keys.calls.len(), INPUTS);
            let count = keys.calls.iter().filter(|call| traps(**call)).count();
            let range = match &keys.named.0 {
                name if name.ends_with("half trap") => INPUTS * 45 / 100..INPUTS * 55 / 100,
                name if name.ends_with("all trap") => INPUTS..INPUTS + 1,
                _ => INPUTS / 10..INPUTS * 3 / 10,
            };
            assert!(range.contains(&count), "{:?}: {count}", keys.named);
        }
    }

    #[test]
    fn a_page_has_one_closed_number() {
        for keys in Keys::all().filter(|keys| keys.named.0.contains("a page")) {
            let first = keys.calls[0].divisor;
            assert!(first != 0 && keys.calls.iter().all(|call| call.divisor == first));
        }
    }

    #[test]
    fn a_row_has_a_cell_for_each_column() {
        let keys = Keys::all().next().unwrap();
        let row = keys.row(careful, careful).unwrap();
        assert!(row.starts_with("| DIV, drawn | 8 | "), "{row}");
        assert_eq!(row.matches('|').count(), 2 + 3 + 1, "{row}");
    }

    #[test]
    fn a_wrong_answer_is_told_and_nothing_is_timed() {
        let keys = Keys::all().next().unwrap();
        let wrong = |call, trap: &mut u8| {
            let status = careful(call, trap);
            *trap ^= 1;
            status
        };
        let told = keys.row(wrong, careful).unwrap_err();
        assert!(told.starts_with("would trap, mode 00: "), "{told}");
    }
}
