//! The two sides, each as a function from a raw request to the same record.

use crate::asked::Asked;
use hatchyarn::raw;
pub use hatchyarn::raw::Numbers;

/// A side as a value, so that a test can put a wrong one in place of the port.
pub type Side = fn(Asked) -> Numbers;

/// The port, through the static library.
pub fn ours(asked: Asked) -> Numbers {
    raw::ask(asked.op, asked.mode, asked.flags, asked.x, asked.y)
}

/// MartyPC's Rust as it stands. It judges nothing, so statuses 3, 4 and 5 are the oracle's; and it has
/// one refusal of a divide, so the oracle tells which of 6, 8 and 9 it is.
pub fn theirs(asked: Asked) -> Numbers {
    match asked.judged() {
        Ok(request) => {
            let given = oracle::answer(&request);
            Numbers {
                status: given.status(),
                flags: given.flags,
                steps: given.steps,
                r: given.r,
                s: given.s,
            }
        }
        Err(fault) => refused(fault.status()),
    }
}

/// A status with zeros after it.
pub fn refused(status: u8) -> Numbers {
    Numbers {
        status,
        flags: 0,
        steps: 0,
        r: 0,
        s: 0,
    }
}

/// The names of the fields in which two answers differ.
pub fn fields_apart(ours: &Numbers, theirs: &Numbers) -> String {
    names_apart(&[
        ("status", ours.status != theirs.status),
        ("flags", ours.flags != theirs.flags),
        ("steps", ours.steps != theirs.steps),
        ("R", ours.r != theirs.r),
        ("S", ours.s != theirs.s),
    ])
}

/// The names of those parts that differ.
pub fn names_apart(parts: &[(&str, bool)]) -> String {
    let apart: Vec<&str> = parts.iter().filter(|p| p.1).map(|p| p.0).collect();
    apart.join(", ")
}

/// The 18 digits of an answer.
pub fn digits(given: &Numbers) -> String {
    format!(
        "{:02X}{:04X}{:04X}{:04X}{:04X}",
        given.status, given.flags, given.steps, given.r, given.s
    )
}
