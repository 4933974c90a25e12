//! A function over text held to the model: what it returns, the bytes that it writes, and the bytes
//! that it must leave.

use super::model::{self, Model, ANSWER};
use crate::lent::Lent;
use crate::tally::Tally;
use hatchyarn::raw::Ran;

/// A run to be held: a text with its model, and how it is run.
#[derive(Clone, Copy, Debug)]
pub struct Case<'a> {
    pub text: &'a [u8],
    pub model: &'a Model,
    pub room: usize,
    pub at_end: bool,
}

/// Holds one run over a text. `act` is what runs, so that a test can run something wrong.
pub fn run(tally: &mut Tally, case: Case, act: impl FnOnce(Case, &mut Lent) -> Ran) {
    let Case { room, at_end, .. } = case;
    let mut lent = Lent::new(room);
    let ran = act(case, &mut lent);
    let (lines, used) = case.model.within(room);
    let expected = Lent::new(room).with(&case.model.answers[..lines * ANSWER]);
    let parts = [
        ("lines", ran.lines != lines),
        ("used", ran.used != used),
        ("bytes", lent != expected),
    ];
    tally.hold_call(&parts, || {
        let text = shown(case.text);
        format!("run over {text} in a room of {room}, at_end {at_end}")
    });
}

/// Holds the answer to one line.
pub fn line(tally: &mut Tally, line: &[u8], room: usize, act: impl FnOnce(&[u8], &mut Lent) -> u8) {
    let mut lent = Lent::new(room);
    let status = act(line, &mut lent);
    let answer = model::answer(line);
    let written = if room < ANSWER { &[] } else { &answer[..] };
    let expected = Lent::new(room).with(written);
    let parts = [
        ("status", status != model::status(line, room)),
        ("bytes", lent != expected),
    ];
    tally.hold_call(&parts, || {
        format!("line {} in a room of {room}", shown(line))
    });
}

/// As much of a text as a reader can use.
pub fn shown(text: &[u8]) -> String {
    let start = text[..text.len().min(120)].escape_ascii();
    match text.len() {
        0..=120 => format!("\"{start}\""),
        length => format!("\"{start}...\" ({length} bytes)"),
    }
}
