//! MartyPC's 8088 arithmetic, asked by request lines.
//!
//! Three files of MartyPC are compiled unchanged from a tree outside this
//! repository. The rest of the crate is ours: a shim that stands in for what
//! those files call but do not hold, and the reading and writing of lines.
//! A comparison or a benchmark calls [`answer`] with a [`Request`]; a program
//! that has lines calls [`session::run`].

pub mod answer;
pub mod borders;
pub mod draw;
pub mod edges;
mod hex;
pub mod malformed;
pub mod refusal;
pub mod request;
pub mod session;
pub mod shim;

pub use answer::{answer, Answer};
pub use refusal::Refused;
pub use request::{Fault, Request};

// MartyPC's files name this macro by the crate root.
pub(crate) use shim::cycles_mc;

include!(concat!(env!("OUT_DIR"), "/martypc.rs"));
