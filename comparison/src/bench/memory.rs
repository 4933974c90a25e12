//! The most memory that a program held, read while it still waits for input: what is told of a
//! program that has ended may be its parent's.

use std::io::{self, Read};
use std::path::Path;
use std::process::{Child, Command, Stdio};
use std::thread;
use std::time::Duration;

/// So often in a row the program must be seen asleep before it counts as waiting.
const ASLEEP: u32 = 10;

/// The peak in KiB after a program has read all of an input that has not ended.
pub fn peak(program: &Path, input: &mut impl Read) -> io::Result<u64> {
    let mut child = Command::new(program)
        .stdin(Stdio::piped())
        .stdout(Stdio::null())
        .spawn()?;
    let mut pipe = child.stdin.take().expect("its input is a pipe");
    io::copy(input, &mut pipe)?;
    let peak = wait_asleep(&child).and_then(|()| field(&child, "VmHWM:"));
    drop(pipe);
    child.wait()?;
    let text = peak?;
    let number = text.split_whitespace().next().unwrap_or_default();
    number
        .parse()
        .map_err(|_| io::Error::other(format!("VmHWM is `{text}`, not a number of kB")))
}

fn wait_asleep(child: &Child) -> io::Result<()> {
    let mut seen = 0;
    while seen < ASLEEP {
        thread::sleep(Duration::from_millis(10));
        seen = if field(child, "State:")?.starts_with('S') {
            seen + 1
        } else {
            0
        };
    }
    Ok(())
}

fn field(child: &Child, name: &str) -> io::Result<String> {
    let path = format!("/proc/{}/status", child.id());
    let status = std::fs::read_to_string(&path)?;
    let line = status.lines().find_map(|line| line.strip_prefix(name));
    line.map(|value| value.trim().to_string())
        .ok_or_else(|| io::Error::other(format!("{path} has no {name}")))
}

#[cfg(test)]
mod tests {
    use super::*;

    #[test]
    fn a_program_that_copies_holds_some_memory_but_not_its_input() {
        let mut input = io::repeat(b'0').take(100_000_000);
        let peak = peak(Path::new("cat"), &mut input).unwrap();
        assert!((1..50_000).contains(&peak), "{peak} KiB");
    }
}
