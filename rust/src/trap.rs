use crate::operation::Operation;
use crate::raw;

/// Whether a divide would trap, for whoever needs that of many keys and nothing else. No quotient is
/// worked out.
impl Operation {
    /// Whether the chip would trap: whether [`ask`](Operation::ask), with any flags, is
    /// [`Err(Refusal::Divide { .. })`](crate::Refusal::Divide). Only a divide can, and anything else is
    /// false. `rep` changes nothing.
    ///
    /// ```
    /// use hatchyarn::Operation;
    ///
    /// let rights = |key, number| Operation::Divide8 { dividend: key, divisor: number, signed: true, rep: false };
    /// assert!(rights(0xFF80, 0x01).would_trap()); // the quotient would be -128
    /// assert!(!rights(0xFF81, 0x01).would_trap());
    /// assert!(rights(0x0007, 0x00).would_trap());
    /// assert!(!Operation::Neg8(0x80).would_trap());
    /// ```
    pub fn would_trap(self) -> bool {
        match self {
            Operation::Divide8 { .. } | Operation::Divide16 { .. } => {
                let (_, mode, dividend, divisor) = self.numbers();
                raw::would_trap(mode, dividend, divisor).trap
            }
            _ => false,
        }
    }

    /// Of each key, in their order, whether its 8-bit divide by the divisor would trap. Nothing is
    /// allocated. REP is not asked for, since it changes nothing.
    ///
    /// A list page shows which keys are closed. By 5 those are closed whose magnitude is 128 times 5,
    /// which is 0280, or more:
    ///
    /// ```
    /// use hatchyarn::Operation;
    ///
    /// let keys = [0x027F, 0x0280, 0xFF80, 0xFD81, 0xFD80, 0x8000];
    /// let closed = Operation::would_trap_each8(&keys, 0x05, true);
    /// assert_eq!(closed.len(), keys.len());
    /// let page: Vec<String> = keys
    ///     .iter()
    ///     .zip(closed)
    ///     .map(|(key, closed)| format!("{key:04X} {}", if closed { "closed" } else { "open to a shelf" }))
    ///     .collect();
    /// assert_eq!(page, [
    ///     "027F open to a shelf",
    ///     "0280 closed",
    ///     "FF80 open to a shelf",
    ///     "FD81 open to a shelf",
    ///     "FD80 closed",
    ///     "8000 closed",
    /// ]);
    ///
    /// // A number of 0 closes all.
    /// assert!(Operation::would_trap_each8(&keys, 0x00, true).all(|closed| closed));
    /// ```
    pub fn would_trap_each8(
        keys: &[u16],
        divisor: u8,
        signed: bool,
    ) -> impl ExactSizeIterator<Item = bool> + '_ {
        keys.iter().map(move |&dividend| {
            let divide = Operation::Divide8 {
                dividend,
                divisor,
                signed,
                rep: false,
            };
            divide.would_trap()
        })
    }

    /// The same of 16-bit divides, whose keys have 32 bits.
    ///
    /// ```
    /// use hatchyarn::Operation;
    ///
    /// let keys = [0x0002_7FFF, 0x0002_8000, 0xFFFD_8001, 0xFFFD_8000];
    /// let closed = Operation::would_trap_each16(&keys, 0x0005, true);
    /// assert!(closed.eq([false, true, false, true]));
    /// ```
    pub fn would_trap_each16(
        keys: &[u32],
        divisor: u16,
        signed: bool,
    ) -> impl ExactSizeIterator<Item = bool> + '_ {
        keys.iter().map(move |&dividend| {
            let divide = Operation::Divide16 {
                dividend,
                divisor,
                signed,
                rep: false,
            };
            divide.would_trap()
        })
    }
}
