//! The port and MartyPC's own Rust, asked the same.
//!
//! Both are called as functions, so that nothing between them can hide a difference. The port is the
//! static library that `./build` makes from proved code; MartyPC's Rust is the crate `oracle`. This
//! is a crate of its own, so that the oracle can be built where the port is not. What MartyPC does not
//! have is held to a model or a reference.

pub mod answers;
pub mod asked;
pub mod bench;
pub mod careful;
pub mod divides;
pub mod filter;
pub mod form;
pub mod lent;
pub mod lines;
pub mod packed;
pub mod plan;
pub mod refused_flags;
pub mod registers;
pub mod roads;
pub mod section;
pub mod sides;
pub mod tally;
pub mod trap;

mod bytes;
mod judged;
mod refused;
pub mod whole;
mod words;
