//! The port's function that counts by which road the ones of a quotient came. It is held to a reference, to the
//! port's full divide of the same request, and to MartyPC's own divides.

pub mod answer;
pub mod careful;
pub mod full;
pub mod held;
pub mod law;
pub mod linked;
pub mod loan;
pub mod operands;
pub mod reference;
pub mod sections;
