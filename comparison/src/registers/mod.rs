//! The port's function over a register record. It is held to a reference, which works everything out from the
//! charts in 64 bits, to the port's own answers by value, and to MartyPC's own Rust.

pub mod call;
pub mod careful;
pub mod charts;
pub mod held;
pub mod linked;
pub mod loan;
pub mod operands;
pub mod reference;
pub mod refusals;
pub mod sections;
pub mod sequence;
pub mod sequences;
