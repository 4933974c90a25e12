//! The same promise in plain Rust once more, written for speed: the line feed is looked for where it most
//! often is, a table says what each byte is worth, and all digits are read without a way out. It is as quick
//! as any of the forms that were tried; a table of two digits and eight digits at once in a register are not
//! quicker. Benchmarks time the port beside it too.

use super::reference::{Record, DIGITS, END};

/// A bit above those of a number, so that it stays wherever a number is put together of four digits.
const NO_DIGIT: u32 = 1 << 16;

/// What each byte is worth as a digit.
static WORTH: [u32; 256] = worth();

const fn worth() -> [u32; 256] {
    let mut table = [NO_DIGIT; 256];
    let mut digit = 0;
    while digit < 16 {
        table[b"0123456789ABCDEF"[digit] as usize] = digit as u32;
        table[b"0123456789abcdef"[digit] as usize] = digit as u32;
        digit += 1;
    }
    table
}

/// Reads a line as the port's function does. It is never inlined, because the port's is a call too.
#[inline(never)]
pub fn read(line: &[u8], record: &mut Record) -> u8 {
    read_line(line, record)
}

/// Reads the next line as the port's function does. A line feed is no digit, so that 18 digits before one
/// are a line.
#[inline(never)]
pub fn next(text: &[u8], place: &mut usize, record: &mut Record, start: &mut usize) -> u8 {
    let from = *place;
    let Some(rest @ [_, ..]) = text.get(from..) else {
        return END;
    };
    *start = from;
    if let Some([digits @ .., b'\n']) = rest.first_chunk::<{ DIGITS + 1 }>() {
        if let Some(read) = numbers(digits) {
            *place = from + DIGITS + 1;
            return judge(read, record);
        }
    }
    search(rest, place, record)
}

/// Reads the line that the text starts with, wherever it ends.
#[inline(never)]
fn search(text: &[u8], place: &mut usize, record: &mut Record) -> u8 {
    let feed = text.iter().position(|&byte| byte == b'\n');
    let length = feed.unwrap_or(text.len());
    *place += length + usize::from(feed.is_some());
    read_line(&text[..length], record)
}

#[inline(always)]
fn read_line(line: &[u8], record: &mut Record) -> u8 {
    match line.try_into().map(numbers) {
        Ok(Some(read)) => judge(read, record),
        Ok(None) => 31,
        Err(_) => 30,
    }
}

/// Where there is nothing but digits.
#[inline(always)]
fn numbers(line: &[u8; DIGITS]) -> Option<Record> {
    let one = |place: usize| WORTH[usize::from(line[place])];
    let two = |place| one(place) << 4 | one(place + 1);
    let four = |place| two(place) << 8 | two(place + 2);
    let numbers = [two(0), four(2), four(6), four(10), four(14)];
    let seen = numbers.into_iter().fold(0, |seen, number| seen | number);
    (seen < NO_DIGIT).then(|| numbers.map(|number| number as u16))
}

/// Writes what is admitted. Returns the status. Most answers have status 0, which has no zeros to keep.
#[inline(always)]
fn judge(read: Record, record: &mut Record) -> u8 {
    let [status, flags, steps, r, s] = read;
    let has_no_flag = flags & !0x08D5 != 0;
    if status != 0 || has_no_flag {
        if !matches!(status, 0..=6 | 8 | 9) {
            return 32;
        }
        if has_no_flag {
            return 33;
        }
        let kept = if status < 6 { flags | steps } else { 0 };
        if kept | r | s != 0 {
            return 34;
        }
    }
    *record = read;
    0
}
