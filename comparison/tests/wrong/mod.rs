//! Wrong ports: each differs from the port by one rule, of refused divides, of packed digits, of
//! answer lines that are read back, of what would trap, over a register record or of the roads.

pub mod answers;
pub mod flags;
pub mod packed;
pub mod registers;
pub mod roads;
pub mod statuses;
pub mod trap;
