//! The port's function that tells whether a divide would trap. It is held to a reference, to the port's full
//! divide of the same request, and to MartyPC's own divides.

pub mod call;
pub mod careful;
pub mod held;
pub mod linked;
pub mod loan;
pub mod operands;
pub mod reference;
pub mod sections;
