//! What a text has to be answered, written from the scope and by no function of either side but the
//! arithmetic: cut at line feeds, judge by the table of statuses, write 19 bytes.

use crate::asked::Asked;
use crate::sides::{digits, refused, theirs, Numbers};

/// The bytes of an answer, with its line feed.
pub const ANSWER: usize = 19;

/// The digits of a request.
const REQUEST: usize = 20;

/// A text as it has to be answered, in a room without bounds.
#[derive(Clone, Debug, Default, PartialEq, Eq)]
pub struct Model {
    /// The answers, one after another.
    pub answers: Vec<u8>,
    /// Where each line is over, its line feed included.
    pub ends: Vec<usize>,
}

impl Model {
    pub fn of(text: &[u8], at_end: bool) -> Model {
        let mut model = Model::default();
        let mut over = 0;
        for line in text.split_inclusive(|&byte| byte == b'\n') {
            let body = match line.strip_suffix(b"\n") {
                Some(body) => body,
                None if at_end => line,
                None => break,
            };
            over += line.len();
            model.ends.push(over);
            model.answers.extend(answer(body));
        }
        model
    }

    /// How many lines a room takes, and how many bytes of the text they are.
    pub fn within(&self, room: usize) -> (usize, usize) {
        let lines = self.ends.len().min(room / ANSWER);
        let used = if lines == 0 { 0 } else { self.ends[lines - 1] };
        (lines, used)
    }
}

/// The answer to one line, given without its line feed.
pub fn answer(line: &[u8]) -> Vec<u8> {
    let mut bytes = digits(&numbers(line)).into_bytes();
    bytes.push(b'\n');
    bytes
}

/// The status of a line in a room of this size.
pub fn status(line: &[u8], room: usize) -> u8 {
    if room < ANSWER {
        7
    } else {
        numbers(line).status
    }
}

/// The answer to one line as numbers, wherever it is written.
pub fn numbers(line: &[u8]) -> Numbers {
    if line.len() != REQUEST {
        return refused(1);
    }
    if !line.iter().all(u8::is_ascii_hexdigit) {
        return refused(2);
    }
    let text = std::str::from_utf8(line).expect("digits are text");
    let field = |from, to| u32::from_str_radix(&text[from..to], 16).expect("digits are a number");
    theirs(Asked {
        op: field(0, 2) as u8,
        mode: field(2, 4) as u8,
        flags: field(4, 8) as u16,
        x: field(8, 16),
        y: field(16, 20) as u16,
    })
}
