//! The program `filter`: MartyPC's Rust behind request lines, made for speed. `filter [FILE]`.

use comparison::filter;
use std::fs::File;
use std::io;
use std::process::ExitCode;

fn main() -> ExitCode {
    // Standard output of Rust looks for line feeds in all that is written; the file beneath does not.
    let answered = match std::env::args_os().nth(1) {
        Some(path) => File::open(path).and_then(|file| filter::run(file, stdout()?)),
        None => stdin().and_then(|input| filter::run(input, stdout()?)),
    };
    match answered {
        Ok(()) => ExitCode::SUCCESS,
        Err(error) => {
            eprintln!("filter: {error}");
            ExitCode::FAILURE
        }
    }
}

fn stdin() -> io::Result<File> {
    use std::os::fd::AsFd;
    io::stdin().as_fd().try_clone_to_owned().map(File::from)
}

fn stdout() -> io::Result<File> {
    use std::os::fd::AsFd;
    io::stdout().as_fd().try_clone_to_owned().map(File::from)
}
