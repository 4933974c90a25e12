//! A function of both sides on the same inputs: first compared, then timed.

use super::given::Flags;
use super::told::Told;
use crate::asked::Asked;
use crate::bench::drawn::Drawn;
use crate::bench::table::{self, Row};
use crate::sides::{digits, Numbers};
use std::hint::black_box;
use std::mem::MaybeUninit;

/// A request made ready, so that the calls are all that is timed.
pub struct Input {
    pub x: u32,
    pub y: u16,
    pub carry: bool,
    /// The flags as MartyPC keeps them, and as the port does.
    pub word: u16,
    pub flags: Flags,
}

impl From<Asked> for Input {
    fn from(asked: Asked) -> Input {
        let flags = Flags::from(asked.flags);
        Input {
            x: asked.x,
            y: asked.y,
            carry: flags.carry,
            word: asked.flags,
            flags,
        }
    }
}

/// What becomes of a function of both sides: a row of one table or of another.
pub trait Measured {
    /// An error says where the two sides differ. Both must write all of what they are given room for.
    fn row<R: Told, S: Told>(
        &self,
        ours: impl Fn(&Input, &mut MaybeUninit<R>),
        theirs: impl Fn(&Input, &mut MaybeUninit<S>),
    ) -> Row;
}

/// The row of the two sides beside each other.
pub struct Pair {
    pub drawn: Drawn,
    inputs: Vec<Input>,
}

impl Pair {
    pub fn new(drawn: Drawn) -> Pair {
        let inputs = drawn.asked.iter().copied().map(Input::from).collect();
        Pair { drawn, inputs }
    }

    /// An error shows the first input that the two sides answer differently.
    pub fn compare<R: Told, S: Told>(
        &self,
        ours: impl Fn(&Input, &mut MaybeUninit<R>),
        theirs: impl Fn(&Input, &mut MaybeUninit<S>),
    ) -> Result<(), String> {
        for (input, asked) in self.inputs.iter().zip(&self.drawn.asked) {
            let [ours, theirs] = [answer(input, *asked, &ours), answer(input, *asked, &theirs)];
            if ours != theirs {
                let (line, ours, theirs) = (asked.line(), digits(&ours), digits(&theirs));
                return Err(format!("{line}: {ours} and MartyPC's {theirs}"));
            }
        }
        Ok(())
    }

    /// Asks one side each of the inputs once.
    #[inline(always)]
    pub fn pass<R>(&self, call: impl Fn(&Input, &mut MaybeUninit<R>)) {
        let mut out = MaybeUninit::uninit();
        for input in black_box(&self.inputs[..]) {
            call(input, &mut out);
            black_box(&mut out);
        }
    }
}

impl Measured for Pair {
    fn row<R: Told, S: Told>(
        &self,
        ours: impl Fn(&Input, &mut MaybeUninit<R>),
        theirs: impl Fn(&Input, &mut MaybeUninit<S>),
    ) -> Row {
        self.compare(&ours, &theirs)?;
        let (ours, theirs) = (|| self.pass(&ours), || self.pass(&theirs));
        Ok(table::beside(self.drawn.named(), ours, theirs))
    }
}

fn answer<R: Told>(
    input: &Input,
    asked: Asked,
    call: impl Fn(&Input, &mut MaybeUninit<R>),
) -> Numbers {
    let mut out = MaybeUninit::zeroed();
    call(input, &mut out);
    // SAFETY: the call has written all of it.
    unsafe { out.assume_init() }.told(asked)
}

#[cfg(test)]
mod tests {
    use super::super::given::{Done, ResultCoa};
    use super::super::martypc;
    use super::*;
    use crate::bench::counts::USUAL;
    use crate::bench::refused::RefusedDivide;
    use oracle::request::{Alu, Operation, Width};

    #[test]
    fn a_wrong_answer_is_told_and_nothing_is_timed() {
        let right = |input: &Input, out: &mut MaybeUninit<ResultCoa<u8>>| {
            martypc::alu_add(out, input.x as u8, input.y as u8);
        };
        let wrong = |input: &Input, out: &mut MaybeUninit<ResultCoa<u8>>| {
            martypc::alu_adc(out, input.x as u8, input.y as u8, input.carry);
        };
        let add = Operation::Alu(Alu::Add, Width::Byte);
        let pair = Pair::new(Drawn::with_counts(add, USUAL));
        let told = pair.row(wrong, right).unwrap_err();
        assert!(told.starts_with("0000"), "{told}");
        assert!(told.contains(" and MartyPC's 00"), "{told}");
    }

    #[test]
    fn a_refused_divide_with_the_flags_handed_in_is_told() {
        type Out = MaybeUninit<Done<Result<(u8, u8), bool>, u16>>;
        let right = |input: &Input, out: &mut Out| {
            martypc::div8(out, input.x as u16, input.y as u8, false, false, input.word);
        };
        let wrong = |input: &Input, out: &mut Out| {
            right(input, out);
            // SAFETY: it has just been written.
            unsafe { out.assume_init_mut() }.flags = input.word;
        };
        let zero_divisor = RefusedDivide::all().next().unwrap();
        let pair = Pair::new(Drawn::refused(zero_divisor));
        let told = pair.row(wrong, right).unwrap_err();
        assert!(told.starts_with("1100"), "{told}");
        assert!(told.contains(" and MartyPC's 06"), "{told}");
    }
}
