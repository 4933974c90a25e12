//! A call of one of the two functions, as a caller has it.

use std::fmt;

#[derive(Clone, Copy, Debug, PartialEq, Eq)]
pub enum Operation {
    Add,
    Subtract,
}

impl Operation {
    pub const ALL: [Operation; 2] = [Operation::Add, Operation::Subtract];
}

/// Whether it is admitted or not.
#[derive(Clone, Copy, Debug, PartialEq, Eq)]
pub struct Call<'a> {
    pub operation: Operation,
    /// Packed digits, the lowest byte first.
    pub x: &'a [u8],
    pub y: &'a [u8],
    /// The carry that comes in, or the borrow.
    pub carry: bool,
    /// How many bytes there are for the result.
    pub room: usize,
}

impl<'a> Call<'a> {
    /// With as much room as X has bytes.
    pub fn new(operation: Operation, x: &'a [u8], y: &'a [u8], carry: bool) -> Call<'a> {
        Call {
            operation,
            x,
            y,
            carry,
            room: x.len(),
        }
    }

    pub fn in_room(self, room: usize) -> Call<'a> {
        Call { room, ..self }
    }
}

impl fmt::Display for Operation {
    fn fmt(&self, out: &mut fmt::Formatter) -> fmt::Result {
        out.write_str(match self {
            Operation::Add => "add",
            Operation::Subtract => "subtract",
        })
    }
}

impl fmt::Display for Call<'_> {
    fn fmt(&self, out: &mut fmt::Formatter) -> fmt::Result {
        let Call {
            operation,
            x,
            y,
            carry,
            room,
        } = self;
        write!(
            out,
            "packed {operation}, lowest byte first, of {x:02X?} and {y:02X?}, carry {carry}, \
             in a room of {room}"
        )
    }
}
