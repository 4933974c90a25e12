//! A call of one of the two functions, as a caller has it.

use crate::lines::held::shown;
use std::fmt;

#[derive(Clone, Copy, Debug, PartialEq, Eq)]
pub enum Call<'a> {
    /// One line, without its line feed.
    Read(&'a [u8]),
    /// The next line of a text from a place on, which may be past the end.
    Next(&'a [u8], usize),
}

impl<'a> Call<'a> {
    /// The line, or the whole text.
    pub fn text(self) -> &'a [u8] {
        match self {
            Call::Read(text) | Call::Next(text, _) => text,
        }
    }
}

impl fmt::Display for Call<'_> {
    fn fmt(&self, out: &mut fmt::Formatter) -> fmt::Result {
        match self {
            Call::Read(line) => write!(out, "answer line {}", shown(line)),
            Call::Next(text, place) => {
                write!(out, "next answer from place {place} of {}", shown(text))
            }
        }
    }
}
