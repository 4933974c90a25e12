//! The port and MartyPC's Rust, or what else does the same, timed on the same job. Times are told, never
//! judged.

pub mod answers;
pub mod calls;
mod counts;
mod drawn;
mod files;
#[cfg(feature = "functions")]
pub mod functions;
mod keys;
pub mod lines;
mod memory;
pub mod packed;
pub mod programs;
mod refused;
pub mod registers;
pub mod roads;
mod rounds;
mod table;
pub mod trap;
