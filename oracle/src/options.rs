//! Reads the command line, so that `main` only has to act on it.

use oracle::request::Operation;

pub const HELP: &str = "\
Answers request lines with MartyPC's own Rust.

use:
  oracle answer < requests > answers
  oracle make --seed N --count N [--op XX]... > requests
  oracle make --edges [--op XX]... > requests
  oracle make --borders > requests
  oracle make --malformed > requests
  oracle record < requests > records
  oracle --help

answer
  Reads request lines of 20 hexadecimal digits and writes one answer line of
  18 digits for each. It stops at the first line that is not admitted.

make
  Writes request lines. All of them are admitted, but for --malformed.
  --seed N   the seed, a decimal number; the same seed gives the same lines
  --count N  how many lines
  --op XX    only this op, two hexadecimal digits; may be given again
  --edges    every combination of edge operands instead; the seed and the
             count are then not needed and not used
  --borders  divides one to either side of each border between accepted and
             refused, and between the refusals
  --malformed  lines that are not admitted, of every kind

record
  Reads lines, admitted or not, and writes for each what a port has to answer:
  18 digits, a space, and the line. A line that is not admitted has its status
  and zeros.

exit: 0 done, 1 a line, a read or a write failed, 2 the command is not understood
";

#[derive(Debug, PartialEq, Eq)]
pub enum Command {
    Help,
    Answer,
    Draw {
        seed: u64,
        count: u64,
        operations: Vec<Operation>,
    },
    Edges {
        operations: Vec<Operation>,
    },
    Borders,
    Malformed,
    Record,
}

/// The command, or what is wrong with it.
pub fn read(mut arguments: impl Iterator<Item = String>) -> Result<Command, String> {
    let name = arguments.next().ok_or("no command is given")?;
    match name.as_str() {
        "--help" | "-h" | "help" => Ok(Command::Help),
        "answer" => read_bare(Command::Answer, &name, arguments),
        "make" => read_make(arguments),
        "record" => read_bare(Command::Record, &name, arguments),
        _ => Err(format!("unknown command `{name}`")),
    }
}

/// A command that takes no option but `--help`.
fn read_bare(
    command: Command,
    name: &str,
    mut arguments: impl Iterator<Item = String>,
) -> Result<Command, String> {
    match arguments.next().as_deref() {
        None => Ok(command),
        Some("--help") => Ok(Command::Help),
        Some(option) => Err(format!("unknown option `{option}` of {name}")),
    }
}

fn read_make(mut arguments: impl Iterator<Item = String>) -> Result<Command, String> {
    let (mut seed, mut count, mut edges) = (None, None, false);
    let mut ops = Vec::new();
    while let Some(option) = arguments.next() {
        match option.as_str() {
            "--help" => return Ok(Command::Help),
            "--seed" => seed = Some(number(&option, &mut arguments)?),
            "--count" => count = Some(number(&option, &mut arguments)?),
            "--edges" => edges = true,
            "--borders" => return Ok(Command::Borders),
            "--malformed" => return Ok(Command::Malformed),
            "--op" => ops.push(op(&value(&option, &mut arguments)?)?),
            _ => return Err(format!("unknown option `{option}` of make")),
        }
    }
    let named = |operation: &Operation| ops.is_empty() || ops.contains(&operation.code().0);
    let operations = Operation::all().filter(named).collect();
    if edges {
        return Ok(Command::Edges { operations });
    }
    Ok(Command::Draw {
        seed: seed.ok_or("make needs --seed, or --edges")?,
        count: count.ok_or("make needs --count, or --edges")?,
        operations,
    })
}

fn value(option: &str, arguments: &mut impl Iterator<Item = String>) -> Result<String, String> {
    arguments
        .next()
        .ok_or_else(|| format!("{option} needs a value"))
}

fn number(option: &str, arguments: &mut impl Iterator<Item = String>) -> Result<u64, String> {
    let text = value(option, arguments)?;
    text.parse()
        .map_err(|_| format!("{option} takes a decimal number, not `{text}`"))
}

/// A listed op. Every op allows the mode 00, so that mode tells.
fn op(text: &str) -> Result<u8, String> {
    let digits = text.len() == 2 && text.bytes().all(|byte| byte.is_ascii_hexdigit());
    match u8::from_str_radix(text, 16) {
        Ok(code) if digits && Operation::decode(code, 0).is_ok() => Ok(code),
        _ => Err(format!("--op takes a listed op, two digits, not `{text}`")),
    }
}
