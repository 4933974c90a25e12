//! The inputs of the two programs.

use super::counts::{has_count, MOST};
use oracle::draw::Draw;
use oracle::malformed;
use oracle::request::Operation;
use std::fs::File;
use std::io::{self, BufWriter, Write};
use std::path::Path;

/// The name of each file and what it holds.
pub const KINDS: [(&str, Kind); 4] = [
    ("all operations, drawn", Kind::Drawn),
    ("divides alone, drawn", Kind::Divides),
    ("malformed lines", Kind::Malformed),
    ("shifts and rotates by 255", Kind::LongShifts),
];

#[derive(Clone, Copy, Debug, PartialEq, Eq)]
pub enum Kind {
    Drawn,
    Divides,
    Malformed,
    LongShifts,
}

pub fn make(kind: Kind, lines: u64, path: &Path) -> io::Result<()> {
    let mut file = BufWriter::with_capacity(1 << 16, File::create(path)?);
    write(kind, lines, &mut file)?;
    file.flush()
}

pub fn write(kind: Kind, lines: u64, out: &mut impl Write) -> io::Result<()> {
    let mut draw = Draw::new(1);
    let is_kept = |operation: &Operation| match kind {
        Kind::Divides => matches!(operation, Operation::Divide(_)),
        Kind::LongShifts => has_count(operation),
        _ => true,
    };
    let operations: Vec<Operation> = Operation::all().filter(is_kept).collect();
    let malformed = malformed::lines();
    for _ in 0..lines {
        match kind {
            Kind::Malformed => {
                out.write_all(&malformed[draw.below(malformed.len() as u32) as usize])?;
                out.write_all(b"\n")?;
            }
            Kind::LongShifts => out.write_all(&MOST.request(&mut draw, &operations).to_line())?,
            _ => out.write_all(&draw.request(&operations).to_line())?,
        }
    }
    Ok(())
}

#[cfg(test)]
mod tests {
    use super::*;
    use oracle::Request;

    const LINES: u64 = 1000;

    fn text(kind: Kind) -> Vec<u8> {
        let mut text = Vec::new();
        write(kind, LINES, &mut text).unwrap();
        text
    }

    #[test]
    fn a_file_has_as_many_lines_as_are_asked_for() {
        for (name, kind) in KINDS {
            let text = text(kind);
            let feeds = text.iter().filter(|&&byte| byte == b'\n').count();
            assert_eq!(feeds as u64, LINES, "{name}");
            assert_eq!(text.last(), Some(&b'\n'), "{name}");
        }
    }

    #[test]
    fn long_shifts_are_all_shifts_and_rotates_and_all_by_255() {
        let text = text(Kind::LongShifts);
        let parse = |line: &[u8]| Request::parse(line.strip_suffix(b"\n").unwrap()).unwrap();
        let requests: Vec<Request> = text.split_inclusive(|&b| b == b'\n').map(parse).collect();
        assert!(requests.iter().all(|request| request.y() == 255));
        let met = |operation: &Operation| requests.iter().any(|r| r.operation() == *operation);
        let met: Vec<Operation> = Operation::all().filter(met).collect();
        assert!(met.into_iter().eq(Operation::all().filter(has_count)));
    }
}
