//! What comes of a call. The call has the same three numbers as one that asks what would trap.

/// What a call returns, and the two numbers that it writes.
#[derive(Clone, Copy, Debug, PartialEq, Eq)]
pub struct Answer {
    pub status: u8,
    /// The ones by a bit shifted out.
    pub shifted_out: u16,
    /// The ones by no borrow.
    pub no_borrow: u16,
}

impl Answer {
    /// With the two numbers in the order in which they are written.
    pub fn new(status: u8, [shifted_out, no_borrow]: [u16; 2]) -> Answer {
        Answer {
            status,
            shifted_out,
            no_borrow,
        }
    }

    /// Of a divide that cannot be asked or is refused: no road is told.
    pub fn refused(status: u8) -> Answer {
        Answer::new(status, [0, 0])
    }

    /// The two numbers in the order in which they are written.
    pub fn roads(&self) -> [u16; 2] {
        [self.shifted_out, self.no_borrow]
    }

    /// By either road. The sum is one of 32 bits, so that no tally can be too large for it.
    pub fn ones(&self) -> u32 {
        u32::from(self.shifted_out) + u32::from(self.no_borrow)
    }
}
