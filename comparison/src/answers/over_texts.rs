//! The sections of whole texts.

use super::call::Call;
use super::held::hold;
use super::reference::{lines, Record};
use super::texts;
use super::walk;
use crate::form::Form;
use crate::lines::held::shown;
use crate::lines::model::{numbers, ANSWER};
use crate::lines::texts::Texts;
use crate::section::Section;
use crate::sides::{digits, Numbers};
use hatchyarn::raw;

/// A part is a text, read to its end, and from every place in it and some past it.
pub fn places(form: Form) -> Section {
    let parts = form.choose(200_000, 2_000);
    Section::of_calls(
        "answers, texts from every place",
        parts,
        move |part, tally| {
            let text = texts::text(&mut form.draw(26, part));
            walk::hold(tally, &text);
            for place in (0..text.len()).chain(past(&text)) {
                hold(tally, Call::Next(&text, place));
            }
        },
    )
}

/// The end, places beside it and far off, and one that is a start if only its lower half is read.
fn past(text: &[u8]) -> [usize; 6] {
    let end = text.len();
    let upper_half = usize::MAX << (usize::BITS / 2);
    [
        end,
        end + 1,
        end + 19,
        usize::MAX,
        usize::MAX - end,
        upper_half,
    ]
}

/// A part is a text of requests. What a run writes for it is read back, and written once more.
pub fn of_runs(form: Form) -> Section {
    let requests = Texts::new();
    let parts = form.choose(500_000, 10_000);
    Section::of_calls("answers, what a run wrote", parts, move |part, tally| {
        let text = requests.text(&mut form.draw(27, part), part % 500 == 0);
        let expected: Vec<Numbers> = lines(&text).map(numbers).collect();
        let mut answers = vec![0; expected.len() * ANSWER];
        raw::run(&text, &mut answers, true);
        let steps = walk::hold(tally, &answers);
        for line in lines(&answers) {
            hold(tally, Call::Read(line));
        }
        let read: Vec<Numbers> = steps.iter().map(|step| of_record(step.record)).collect();
        let again: Vec<String> = read.iter().map(|numbers| digits(numbers) + "\n").collect();
        if read != expected || again.concat().as_bytes() != answers {
            tally.fail(|| format!("the answers to {}, read back, differ", shown(&text)));
        }
    })
}

fn of_record([status, flags, steps, r, s]: Record) -> Numbers {
    Numbers {
        status: status as u8,
        flags,
        steps,
        r,
        s,
    }
}
