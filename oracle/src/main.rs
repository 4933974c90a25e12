//! The program: a thin hand on the library, for use from a shell.

mod options;

use options::Command;
use oracle::borders;
use oracle::draw::Draw;
use oracle::edges;
use oracle::malformed;
use oracle::request::Operation;
use oracle::session::{self, Stop};
use std::io::{self, BufReader, BufWriter, ErrorKind, Write};
use std::process::ExitCode;

/// Large enough that the calls to the system do not show in a run's time.
const BUFFER: usize = 1 << 16;

fn main() -> ExitCode {
    let arguments = std::env::args_os().skip(1);
    let command = options::read(arguments.map(|text| text.to_string_lossy().into_owned()));
    let result = match command {
        Ok(command) => obey(command),
        Err(wrong) => {
            eprintln!("oracle: {wrong}\nTry `oracle --help`.");
            return ExitCode::from(2);
        }
    };
    match result {
        Ok(()) => ExitCode::SUCCESS,
        // Whoever closed the pipe knows it, so nothing is said.
        Err(Stop::Write(error)) if error.kind() == ErrorKind::BrokenPipe => ExitCode::FAILURE,
        Err(stop) => {
            eprintln!("oracle: {stop}");
            ExitCode::FAILURE
        }
    }
}

fn obey(command: Command) -> Result<(), Stop> {
    let mut output = BufWriter::with_capacity(BUFFER, io::stdout().lock());
    match command {
        Command::Help => output.write_all(options::HELP.as_bytes()),
        Command::Answer => {
            let input = BufReader::with_capacity(BUFFER, io::stdin().lock());
            return session::run(input, output).map(|_| ());
        }
        Command::Record => {
            let input = BufReader::with_capacity(BUFFER, io::stdin().lock());
            return session::record(input, output).map(|_| ());
        }
        Command::Borders => write_borders(&mut output),
        Command::Malformed => write_malformed(&mut output),
        Command::Draw {
            seed,
            count,
            operations,
        } => write_drawn(&mut output, seed, count, &operations),
        Command::Edges { operations } => write_edges(&mut output, &operations),
    }
    .and_then(|()| output.flush())
    .map_err(Stop::Write)
}

fn write_drawn(
    output: &mut impl Write,
    seed: u64,
    count: u64,
    operations: &[Operation],
) -> io::Result<()> {
    let mut draw = Draw::new(seed);
    for _ in 0..count {
        output.write_all(&draw.request(operations).to_line())?;
    }
    Ok(())
}

fn write_edges(output: &mut impl Write, operations: &[Operation]) -> io::Result<()> {
    let mut take = |request: oracle::Request| output.write_all(&request.to_line());
    operations
        .iter()
        .try_for_each(|&operation| edges::each(operation, &mut take))
}

fn write_borders(output: &mut impl Write) -> io::Result<()> {
    borders::requests()
        .iter()
        .try_for_each(|request| output.write_all(&request.to_line()))
}

fn write_malformed(output: &mut impl Write) -> io::Result<()> {
    malformed::lines().iter().try_for_each(|line| {
        output
            .write_all(line)
            .and_then(|()| output.write_all(b"\n"))
    })
}
