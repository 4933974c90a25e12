//! What a careful engineer writes in plain Rust for the promise of the two functions: find the line feed,
//! look at the length, read digit by digit, and judge in the order of the refusals. Benchmarks time the
//! port beside it.

use super::reference::{Record, DIGITS, END};

/// How many digits each number of a record has.
const WIDTHS: [usize; 5] = [2, 4, 4, 4, 4];

/// Reads a line as the port's function does. It is never inlined, because the port's is a call too.
#[inline(never)]
pub fn read(line: &[u8], record: &mut Record) -> u8 {
    match parse(line) {
        Ok(read) => {
            *record = read;
            0
        }
        Err(status) => status,
    }
}

/// Reads the next line as the port's function does.
#[inline(never)]
pub fn next(text: &[u8], place: &mut usize, record: &mut Record, start: &mut usize) -> u8 {
    if *place >= text.len() {
        return END;
    }
    let rest = &text[*place..];
    let feed = rest.iter().position(|&byte| byte == b'\n');
    let line = &rest[..feed.unwrap_or(rest.len())];
    *start = *place;
    *place += line.len() + usize::from(feed.is_some());
    match parse(line) {
        Ok(read) => {
            *record = read;
            0
        }
        Err(status) => status,
    }
}

fn parse(line: &[u8]) -> Result<Record, u8> {
    if line.len() != DIGITS {
        return Err(30);
    }
    let mut record = [0; 5];
    let mut digits = line.iter();
    for (field, width) in record.iter_mut().zip(WIDTHS) {
        for &byte in digits.by_ref().take(width) {
            let digit = char::from(byte).to_digit(16).ok_or(31)?;
            *field = *field << 4 | digit as u16;
        }
    }
    judge(&record)?;
    Ok(record)
}

fn judge(&[status, flags, steps, r, s]: &Record) -> Result<(), u8> {
    if !matches!(status, 0..=6 | 8 | 9) {
        return Err(32);
    }
    if flags & !0x08D5 != 0 {
        return Err(33);
    }
    let zeros_kept = match status {
        0 => true,
        1..=5 => [flags, steps, r, s] == [0; 4],
        _ => [r, s] == [0; 2],
    };
    if zeros_kept {
        Ok(())
    } else {
        Err(34)
    }
}
