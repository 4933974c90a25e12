//! A request as raw numbers, admitted or not.

use oracle::request::Operation;
use oracle::{Fault, Request};

#[derive(Clone, Copy, Debug, PartialEq, Eq)]
pub struct Asked {
    pub op: u8,
    pub mode: u8,
    pub flags: u16,
    pub x: u32,
    pub y: u16,
}

impl Asked {
    /// The 20 digits that ask the same of the program.
    pub fn line(self) -> String {
        format!(
            "{:02X}{:02X}{:04X}{:08X}{:04X}",
            self.op, self.mode, self.flags, self.x, self.y
        )
    }

    /// The request as the oracle admits it, or why it does not.
    pub fn judged(self) -> Result<Request, Fault> {
        let operation = Operation::decode(self.op, self.mode)?;
        Request::new(operation, self.flags, self.x, self.y)
    }
}

impl From<Request> for Asked {
    fn from(request: Request) -> Asked {
        let (op, mode) = request.operation().code();
        Asked {
            op,
            mode,
            flags: request.flags(),
            x: request.x(),
            y: request.y(),
        }
    }
}
