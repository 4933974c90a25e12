//! Whole programs on the same files: the port's, and the filter over MartyPC's functions.

use super::files::{self, KINDS};
use super::memory;
use super::rounds::in_turn;
use std::fs::{self, File};
use std::io::{self, Read};
use std::path::{Path, PathBuf};
use std::process::{Command, Stdio};

/// Lines in each file.
const LINES: u64 = 10_000_000;

const ROUNDS: usize = 7;
const LONG_LINE: u64 = 100_000_000;

/// Linux tells processor time in hundredths of a second, on every processor.
const TICKS: f64 = 100.0;

/// Where /proc/PID/stat has the times of ended children, counted from the state.
const USER: usize = 13;
const SYSTEM: usize = 14;

pub struct Programs {
    pub ours: PathBuf,
    pub theirs: PathBuf,
    /// Where the inputs are put. It is made if it is not there.
    pub folder: PathBuf,
}

impl Programs {
    /// Prints both tables. An error says what went wrong with which file.
    pub fn print(&self) -> Result<(), String> {
        fs::create_dir_all(&self.folder).map_err(|error| self.told(&self.folder, error))?;
        println!(
            "Files of {LINES} lines, output to /dev/null; {ROUNDS} rounds, the two in turn; seconds of \
             processor time, median (lowest to highest). The answers are the same, byte for byte.\n\n\
             | file | Hatchyarn | MartyPC's Rust | ratio | million lines a second, each |\n\
             |---|---|---|---|---|"
        );
        let mut made = Vec::new();
        for (name, kind) in KINDS {
            let path = self.folder.join(format!("{kind:?}").to_lowercase());
            files::make(kind, LINES, &path).map_err(|error| self.told(&path, error))?;
            self.print_row(name, &path)
                .map_err(|error| self.told(&path, error))?;
            made.push(path);
        }
        self.print_memory(&made[0])
            .map_err(|error| self.told(&made[0], error))
    }

    fn told(&self, path: &Path, error: io::Error) -> String {
        format!("{}: {error}", path.display())
    }

    fn print_row(&self, name: &str, path: &Path) -> io::Result<()> {
        self.compare(path)?;
        let [ours, theirs] = in_turn(
            ROUNDS,
            || seconds(&self.ours, path),
            || seconds(&self.theirs, path),
        )?;
        let rate = |seconds: f64| LINES as f64 / seconds / 1e6;
        println!(
            "| {name} | {ours:.2} | {theirs:.2} | {:.2} | {:.1}, {:.1} |",
            ours.median / theirs.median,
            rate(ours.median),
            rate(theirs.median)
        );
        Ok(())
    }

    /// An error unless both programs answer the same.
    fn compare(&self, path: &Path) -> io::Result<()> {
        let answers = |program: &Path| {
            let target = self.folder.join("answers");
            let output = File::create(&target)?;
            run(program, path, output.into())?;
            let answers = fs::read(&target);
            fs::remove_file(&target)?;
            answers
        };
        if answers(&self.ours)? != answers(&self.theirs)? {
            return Err(io::Error::other("the two programs answer differently"));
        }
        Ok(())
    }

    fn print_memory(&self, drawn: &Path) -> io::Result<()> {
        println!(
            "\nThe most memory held, in KiB, read while the program waits for more input.\n\n\
             | input | Hatchyarn | MartyPC's Rust |\n|---|---|---|"
        );
        let of_file = |program: &Path| memory::peak(program, &mut File::open(drawn)?);
        let of_line = |program: &Path| memory::peak(program, &mut io::repeat(b'0').take(LONG_LINE));
        let [ours, theirs] = [of_file(&self.ours)?, of_file(&self.theirs)?];
        println!("| {} | {ours} | {theirs} |", KINDS[0].0);
        let [ours, theirs] = [of_line(&self.ours)?, of_line(&self.theirs)?];
        println!("| one line of {LONG_LINE} bytes | {ours} | {theirs} |");
        Ok(())
    }
}

fn run(program: &Path, input: &Path, output: Stdio) -> io::Result<()> {
    let status = Command::new(program).arg(input).stdout(output).status()?;
    if !status.success() {
        let name = program.display();
        return Err(io::Error::other(format!("{name} ended with {status}")));
    }
    Ok(())
}

/// Processor time, the system's part included: what else the machine does is not in it.
fn seconds(program: &Path, input: &Path) -> io::Result<f64> {
    let before = children_ticks()?;
    run(program, input, Stdio::null())?;
    Ok((children_ticks()? - before) as f64 / TICKS)
}

/// The processor time of all programs that this one started and that have ended.
fn children_ticks() -> io::Result<u64> {
    let stat = fs::read_to_string("/proc/self/stat")?;
    // The name stands in brackets and may hold spaces; the numbers come after it.
    let numbers = stat.rsplit(')').next().unwrap_or_default();
    let own = |place: usize| numbers.split_whitespace().nth(place)?.parse::<u64>().ok();
    match (own(USER), own(SYSTEM)) {
        (Some(user), Some(system)) => Ok(user + system),
        _ => Err(io::Error::other("/proc/self/stat does not tell the time")),
    }
}
