//! The program `bench`: prints Markdown tables of times. `./bench` in the top folder starts it.

use comparison::bench::answers;
use comparison::bench::calls;
#[cfg(feature = "functions")]
use comparison::bench::functions;
use comparison::bench::lines;
use comparison::bench::packed;
use comparison::bench::programs::Programs;
use comparison::bench::registers;
use comparison::bench::roads;
use comparison::bench::trap;
use std::process::ExitCode;

const HELP: &str = "\
Times the port beside MartyPC's own Rust, or beside plain Rust where MartyPC has nothing.

use:
  bench functions                               bare functions, where the feature of that name is on
  bench calls                                   one call at a time, by operation
  bench lines                                   request lines from memory, as a text and one by one
  bench packed                                  packed digits, by operation and length
  bench answers                                 answer lines read back, good ones and malformed
  bench trap                                    what would trap, by divide and keys
  bench registers                               over a register record, by operation
  bench roads                                   the roads, by divide, accepted or refused
  bench programs HATCHYARN FILTER FOLDER        whole programs; files are made in FOLDER

exit: 0 measured, 1 the two sides answer differently or a file failed, 2 not understood
";

fn main() -> ExitCode {
    let arguments: Vec<String> = std::env::args().skip(1).collect();
    let words: Vec<&str> = arguments.iter().map(String::as_str).collect();
    let measured = match words[..] {
        #[cfg(feature = "functions")]
        ["functions"] => functions::print(),
        ["calls"] => calls::print(),
        ["lines"] => lines::print(),
        ["packed"] => packed::print(),
        ["answers"] => answers::print(),
        ["trap"] => trap::print(),
        ["registers"] => registers::print(),
        ["roads"] => roads::print(),
        ["programs", ours, theirs, folder] => Programs {
            ours: ours.into(),
            theirs: theirs.into(),
            folder: folder.into(),
        }
        .print(),
        _ => {
            eprint!("{HELP}");
            return ExitCode::from(2);
        }
    };
    match measured {
        Ok(()) => ExitCode::SUCCESS,
        Err(wrong) => {
            eprintln!("bench: {wrong}");
            ExitCode::FAILURE
        }
    }
}
