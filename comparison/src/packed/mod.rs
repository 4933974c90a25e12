//! The port's two functions on packed decimal digits. MartyPC has none, so they are held to a reference.

pub mod call;
pub mod careful;
pub mod digits;
pub mod held;
pub mod loan;
pub mod reference;
pub mod runs;
pub mod sections;
pub mod strings;
pub mod tabled;
