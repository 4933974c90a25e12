//! The sections over text.

use super::held::{self, shown, Case};
use super::model::{Model, ANSWER};
use super::texts::Texts;
use crate::form::Form;
use crate::lent::Lent;
use crate::section::Section;
use crate::tally::Tally;
use hatchyarn::raw::{self, Ran};
use oracle::draw::Draw;
use oracle::malformed;
use oracle::request::REQUEST_DIGITS;

/// Room for no answer, for one, two and three, and for every part of one.
const SMALL_ROOMS: usize = 60;

fn hold_line(tally: &mut Tally, line: &[u8], room: usize) {
    held::line(tally, line, room, |line, lent| {
        raw::line(line, lent.bytes())
    });
}

/// A part is a good line, with every byte in every place of it.
pub fn damaged(form: Form) -> Section {
    let parts = form.choose(400, 8);
    let texts = Texts::new();
    Section::of_calls(
        "lines, every byte in every place",
        parts,
        move |part, tally| {
            let mut draw = form.draw(9, part);
            let good = texts.good(&mut draw);
            for place in 0..REQUEST_DIGITS {
                for byte in 0x00..=0xFF {
                    let mut line = good.clone();
                    line[place] = byte;
                    hold_line(tally, &line, ANSWER + draw.below(3) as usize);
                }
            }
        },
    )
}

/// A part is a room. The lines are every malformed one, every short length, and some long ones.
pub fn rooms(form: Form) -> Section {
    let texts = Texts::new();
    Section::of_calls(
        "lines, every room",
        2 * SMALL_ROOMS as u64,
        move |part, tally| {
            let mut draw = form.draw(10, part);
            let room = match part as usize {
                room @ 0..=SMALL_ROOMS => room,
                _ => draw.below(1000) as usize,
            };
            for line in malformed::lines() {
                hold_line(tally, &line, room);
            }
            for _ in 0..form.choose(2000, 200) {
                hold_line(tally, &texts.good(&mut draw), room);
                hold_line(
                    tally,
                    &vec![b'0'; draw.below(200_001) as usize >> draw.below(18)],
                    room,
                );
            }
        },
    )
}

/// A part is a text, run with both marks in every small room and some larger ones.
pub fn runs(form: Form) -> Section {
    let texts = Texts::new();
    let parts = form.choose(100_000, 3_000);
    Section::of_calls("runs, every room", parts, move |part, tally| {
        let mut draw = form.draw(11, part);
        let text = texts.text(&mut draw, part % 50 == 0);
        for at_end in [false, true] {
            let model = Model::of(&text, at_end);
            let larger = (0..8).map(|_| draw.below(300) as usize);
            let rooms: Vec<usize> = (0..=SMALL_ROOMS).chain(larger).collect();
            for room in rooms {
                let case = Case {
                    text: &text,
                    model: &model,
                    room,
                    at_end,
                };
                held::run(tally, case, run);
            }
        }
    })
}

fn run(case: Case, lent: &mut Lent) -> Ran {
    raw::run(case.text, lent.bytes(), case.at_end)
}

/// A part is a text, handed over piece by piece as a program reads it.
pub fn pieces(form: Form) -> Section {
    let texts = Texts::new();
    let parts = form.choose(1_000_000, 20_000);
    Section::of_calls("runs, in pieces", parts, move |part, tally| {
        let mut draw = form.draw(12, part);
        let text = texts.text(&mut draw, part % 500 == 0);
        let (answers, used) = in_pieces(&text, &mut draw, tally);
        let model = Model::of(&text, true);
        if answers != model.answers || used != text.len() {
            tally.fail(|| format!("run over {} in pieces: the answers differ", shown(&text)));
        }
    })
}

/// The answers of many runs, each going on where the last one stopped, and how far they came.
fn in_pieces(text: &[u8], draw: &mut Draw, tally: &mut Tally) -> (Vec<u8>, usize) {
    let (mut answers, mut from, mut until) = (Vec::new(), 0, 0);
    let longest = draw
        .pick(&[3, 30, 300, 300_000])
        .max(text.len() as u32 / 50);
    loop {
        until = text.len().min(until + 1 + draw.below(longest) as usize);
        let at_end = until == text.len();
        loop {
            let mut out = [0; SMALL_ROOMS + 1];
            let room = draw.below(SMALL_ROOMS as u32 + 2) as usize;
            let ran = raw::run(&text[from..until], &mut out[..room], at_end);
            tally.compared += 1;
            answers.extend_from_slice(&out[..ran.lines * ANSWER]);
            from += ran.used;
            if ran.lines < room / ANSWER {
                break;
            }
        }
        if at_end {
            return (answers, from);
        }
    }
}
