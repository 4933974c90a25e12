//! Answer lines read back, into records that can be compared and told in words.
//!
//! An answer line is 18 hexadecimal digits, as [`answer_all`](crate::answer_all) and the program write them;
//! small letters are read too. [`records`] goes through a text of many lines, past those that cannot be
//! read. Here the answers of two days are held to each other. A line that cannot be read counts as different
//! from every other, and so does one that the other text does not have:
//!
//! ```
//! use hatchyarn::record::{self, BadLine, Record};
//!
//! fn told(line: Option<Result<Record, BadLine>>) -> String {
//!     match line {
//!         Some(Ok(record)) => record.meaning().to_string(),
//!         Some(Err(bad)) => bad.to_string(),
//!         None => "no line".to_string(),
//!     }
//! }
//!
//! /// The lines that differ, each by its number with what it was and what it is.
//! fn differences(yesterday: &[u8], today: &[u8]) -> Vec<String> {
//!     let (mut before, mut after) = (record::records(yesterday), record::records(today));
//!     let mut found = Vec::new();
//!     for number in 1.. {
//!         match (before.next(), after.next()) {
//!             (None, None) => break,
//!             (Some(Ok(old)), Some(Ok(new))) if old == new => {}
//!             (old, new) => found.push(format!("{number}: {} -> {}", told(old), told(new))),
//!         }
//!     }
//!     found
//! }
//!
//! let yesterday = b"000001005100030001\n090014005F00000000\n030000000000000000\n";
//! let today = b"000001005100030001\n080044000900000000\n03\n000000006A00FD00FF";
//! let found = differences(yesterday, today);
//! for line in &found {
//!     println!("{line}");
//! }
//! assert_eq!(found, [
//!     "2: the divide is refused: the quotient does not fit with its sign; flags P A, 95 steps -> \
//!         the divide is refused: the quotient needs more bits than the divisor has; flags P Z, 9 steps",
//!     "3: the request is refused: the op is not listed -> \
//!         the line at byte 38 cannot be read: the line is not 18 bytes long",
//!     "4: no line -> done: no flags, 106 steps, R 00FD, S 00FF",
//! ]);
//! ```
//!
//! One line alone is read by [`parse`](str::parse), or from bytes by `Record::try_from`, and shows itself in
//! capitals:
//!
//! ```
//! use hatchyarn::record::{Reason, Record};
//!
//! let record: Record = "090014005f00000000".parse()?;
//! assert!(record.divide_refused());
//! assert_eq!(record.steps(), 95);
//! assert_eq!(record.to_string(), "090014005F00000000");
//! # Ok::<(), Reason>(())
//! ```

use crate::answer::{Answer, Refusal};
use crate::flags::Flags;
use crate::raw::{self, Numbers};
use std::error::Error;
use std::fmt;
use std::iter::FusedIterator;
use std::str::FromStr;

/// What an answer line holds. Every record is one that can be read: its status is 0 to 6, 8 or 9, its flags
/// are flags, after 1 to 5 the rest is 0, and after 6, 8 and 9 R and S are. No more is judged of the steps.
///
/// One is read from a line, or made from an answer or a refusal, so that what was written can be held to
/// what is answered now:
///
/// ```
/// use hatchyarn::record::Record;
/// use hatchyarn::{Flags, Operation};
///
/// let divide = Operation::Divide8 { dividend: 0xFF80, divisor: 1, signed: true, rep: false };
/// let written: Record = "090014005F00000000".parse()?;
/// assert_eq!(Record::try_from(divide.ask(Flags::NONE))?, written);
/// assert_eq!(written.outcome(), divide.ask(Flags::NONE));
/// # Ok::<(), hatchyarn::record::Reason>(())
/// ```
#[derive(Clone, Copy, Debug, PartialEq, Eq, Hash)]
pub struct Record(Numbers);

impl Record {
    /// How the request was answered: 0 where it was done, else the status of a [`Refusal`].
    pub fn status(self) -> u8 {
        self.0.status
    }

    pub fn flags(self) -> Flags {
        Flags::among(self.0.flags)
    }

    pub fn steps(self) -> u16 {
        self.0.steps
    }

    pub fn r(self) -> u16 {
        self.0.r
    }

    pub fn s(self) -> u16 {
        self.0.s
    }

    /// Whether the chip refused the divide: true of the statuses 6, 8 and 9, and of no other. Where a refused
    /// divide means closed, ask this; which of the three it is tells only why.
    pub fn divide_refused(self) -> bool {
        matches!(self.0.status, 6 | 8 | 9)
    }

    /// The answer or the refusal that the record stands for.
    ///
    /// ```
    /// use hatchyarn::record::Record;
    /// use hatchyarn::Refusal;
    ///
    /// let record: Record = "040000000000000000".parse()?;
    /// assert_eq!(record.outcome(), Err(Refusal::Mode));
    /// # Ok::<(), hatchyarn::record::Reason>(())
    /// ```
    pub fn outcome(self) -> Result<Answer, Refusal> {
        self.0.result()
    }

    /// The record in words. Which operation was asked for does not stand in an answer line, so R and S are
    /// told by their letters.
    ///
    /// ```
    /// use hatchyarn::record::Record;
    ///
    /// let words = |line: &str| line.parse().map(|record: Record| record.meaning().to_string());
    /// assert_eq!(words("000001005100030001")?, "done: flags C, 81 steps, R 0003, S 0001");
    /// assert_eq!(words("030000000000000000")?, "the request is refused: the op is not listed");
    /// assert_eq!(
    ///     words("060044000900000000")?,
    ///     "the divide is refused: the divisor is 0; flags P Z, 9 steps"
    /// );
    /// # Ok::<(), hatchyarn::record::Reason>(())
    /// ```
    pub fn meaning(self) -> Meaning {
        Meaning(self)
    }
}

/// The line's 18 digits, in capitals and without a line feed.
impl fmt::Display for Record {
    fn fmt(&self, out: &mut fmt::Formatter) -> fmt::Result {
        let Numbers {
            status,
            flags,
            steps,
            r,
            s,
        } = self.0;
        out.pad(&format!("{status:02X}{flags:04X}{steps:04X}{r:04X}{s:04X}"))
    }
}

/// Reads a line, given without its line feed.
impl TryFrom<&[u8]> for Record {
    type Error = Reason;

    fn try_from(line: &[u8]) -> Result<Record, Reason> {
        let mut fields = [0; 5];
        let status = raw::read_answer(line, &mut fields);
        result(status, fields)
    }
}

/// Reads a line, given without its line feed.
impl FromStr for Record {
    type Err = Reason;

    fn from_str(line: &str) -> Result<Record, Reason> {
        Record::try_from(line.as_bytes())
    }
}

/// The record of the line that is written for it. There is none for [`Refusal::Room`], after which nothing is
/// written: that is [`Reason::Status`].
impl TryFrom<Result<Answer, Refusal>> for Record {
    type Error = Reason;

    fn try_from(outcome: Result<Answer, Refusal>) -> Result<Record, Reason> {
        let (status, flags, steps, r, s) = match outcome {
            Ok(Answer { flags, steps, r, s }) => (0, flags, steps, r, s),
            Err(Refusal::Divide { why, flags, steps }) => (why.status(), flags, steps, 0, 0),
            Err(Refusal::Room) => return Err(Reason::Status),
            Err(
                refusal @ (Refusal::Length
                | Refusal::Digit
                | Refusal::Operation
                | Refusal::Mode
                | Refusal::TooLarge),
            ) => (refusal.status(), Flags::NONE, 0, 0, 0),
        };
        let flags = flags.word();
        Ok(Record(Numbers {
            status,
            flags,
            steps,
            r,
            s,
        }))
    }
}

/// A record in words, as [`Record::meaning`] gives it.
#[derive(Clone, Copy, Debug, PartialEq, Eq, Hash)]
pub struct Meaning(Record);

impl fmt::Display for Meaning {
    fn fmt(&self, out: &mut fmt::Formatter) -> fmt::Result {
        out.pad(&match self.0.outcome() {
            Ok(Answer { flags, steps, r, s }) => {
                format!(
                    "done: {}, R {r:04X}, S {s:04X}",
                    flags_and_steps(flags, steps)
                )
            }
            Err(refusal @ Refusal::Divide { flags, steps, .. }) => {
                format!("{refusal}; {}", flags_and_steps(flags, steps))
            }
            Err(refusal) => format!("the request is refused: {refusal}"),
        })
    }
}

/// The flags by letter, and the steps.
fn flags_and_steps(flags: Flags, steps: u16) -> String {
    let unit = if steps == 1 { "step" } else { "steps" };
    if flags == Flags::NONE {
        format!("no flags, {steps} {unit}")
    } else {
        format!("flags {flags}, {steps} {unit}")
    }
}

/// Why a line cannot be read. The five are tested in this order, and the first that applies is given.
///
/// ```
/// use hatchyarn::record::{Reason, Record};
///
/// let reason = "070000000000000000".parse::<Record>().unwrap_err();
/// assert_eq!(reason, Reason::Status);
/// assert_eq!(reason.to_string(), "the status is not 0 to 6, 8 or 9");
/// ```
#[derive(Clone, Copy, Debug, PartialEq, Eq, Hash)]
#[non_exhaustive]
pub enum Reason {
    /// Status 30: the line is not 18 bytes long. A line feed or a carriage return is a byte too.
    Length,
    /// Status 31: a byte of the line is no hexadecimal digit.
    Digit,
    /// Status 32: the status is not 0 to 6, 8 or 9.
    Status,
    /// Status 33: a bit of the flags word is no flag.
    Flags,
    /// Status 34: the status is 1 to 5 and the rest is not all 0, or it is 6, 8 or 9 and R or S is not 0.
    NotZero,
}

impl Reason {
    /// The number that the static library has for it.
    pub fn status(self) -> u8 {
        match self {
            Reason::Length => 30,
            Reason::Digit => 31,
            Reason::Status => 32,
            Reason::Flags => 33,
            Reason::NotZero => 34,
        }
    }
}

impl fmt::Display for Reason {
    fn fmt(&self, out: &mut fmt::Formatter) -> fmt::Result {
        out.pad(match self {
            Reason::Length => "the line is not 18 bytes long",
            Reason::Digit => "a byte of the line is no hexadecimal digit",
            Reason::Status => "the status is not 0 to 6, 8 or 9",
            Reason::Flags => "a bit of the flags word is no flag",
            Reason::NotZero => "a field that has to be 0 with this status is not",
        })
    }
}

impl Error for Reason {}

/// What the static library gives where no line is left.
const END: u8 = 255;

fn result(status: u8, [answered, flags, steps, r, s]: [u16; 5]) -> Result<Record, Reason> {
    match status {
        0 => Ok(Record(Numbers {
            status: u8::try_from(answered).expect("the library reads no status over 9"),
            flags,
            steps,
            r,
            s,
        })),
        30 => Err(Reason::Length),
        31 => Err(Reason::Digit),
        32 => Err(Reason::Status),
        33 => Err(Reason::Flags),
        34 => Err(Reason::NotZero),
        other => unreachable!("the library has no status {other}"),
    }
}

/// A line of a text that cannot be read: where it starts, and why.
#[derive(Clone, Copy, Debug, PartialEq, Eq, Hash)]
pub struct BadLine {
    /// The place of its first byte in the text, counted from 0.
    pub byte: usize,
    pub reason: Reason,
}

impl fmt::Display for BadLine {
    fn fmt(&self, out: &mut fmt::Formatter) -> fmt::Result {
        let BadLine { byte, reason } = self;
        out.pad(&format!("the line at byte {byte} cannot be read: {reason}"))
    }
}

impl Error for BadLine {}

/// Reads the answer lines of a text, in their order and past those that cannot be read. A line ends at a
/// line feed, and a last one may lack it; where nothing stands between two line feeds there is a line too,
/// and it cannot be read. Nothing is allocated.
///
/// ```
/// use hatchyarn::record::{self, BadLine, Reason};
///
/// let mut lines = record::records(b"000001005100030001\n\n090014005F00000000");
/// assert_eq!(lines.next().unwrap()?.r(), 3);
/// assert_eq!(lines.next(), Some(Err(BadLine { byte: 19, reason: Reason::Length })));
/// assert_eq!(lines.next().unwrap()?.status(), 9);
/// assert_eq!(lines.next(), None);
///
/// // All of them, or the first that cannot be read.
/// let all: Result<Vec<_>, _> = record::records(b"000001005100030001\n0000\n").collect();
/// let said = "the line at byte 19 cannot be read: the line is not 18 bytes long";
/// assert_eq!(all.unwrap_err().to_string(), said);
/// # Ok::<(), BadLine>(())
/// ```
pub fn records(text: &[u8]) -> Records<'_> {
    Records { text, place: 0 }
}

/// The lines of a text, as [`records`] reads them.
#[derive(Clone, Debug)]
pub struct Records<'a> {
    text: &'a [u8],
    place: usize,
}

impl Records<'_> {
    /// The byte at which the next line starts; where none is left, how long the text is.
    pub fn place(&self) -> usize {
        self.place
    }
}

impl Iterator for Records<'_> {
    type Item = Result<Record, BadLine>;

    fn next(&mut self) -> Option<Result<Record, BadLine>> {
        let (mut fields, mut byte) = ([0; 5], 0);
        match raw::next_answer(self.text, &mut self.place, &mut fields, &mut byte) {
            END => None,
            status => Some(result(status, fields).map_err(|reason| BadLine { byte, reason })),
        }
    }
}

impl FusedIterator for Records<'_> {}
