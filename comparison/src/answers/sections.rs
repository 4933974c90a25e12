//! The sections of single answer lines.

use super::call::Call;
use super::faulty;
use super::held::hold;
use super::lines::{admitted, digits, good, of_letters, word, written, STATUSES};
use super::reference::DIGITS;
use super::texts::good_line;
use crate::form::Form;
use crate::lines::texts::{make_small, STRANGE};
use crate::section::Section;
use crate::tally::Tally;
use oracle::draw::Draw;
use oracle::request::ALL_FLAGS;

/// By itself, as the tail of a text, and with its feed before another line.
fn hold_line(tally: &mut Tally, line: &[u8]) {
    hold(tally, Call::Read(line));
    hold(tally, Call::Next(&[b"\n", line].concat(), 1));
    hold(tally, Call::Next(&[line, b"\n0"].concat(), 0));
}

/// A part is a good line, with every byte in every place of it. The first of each status has zeros, the
/// second the most that it may have.
pub fn damaged(form: Form) -> Section {
    let statuses = STATUSES.len() as u64;
    Section::of_calls(
        "answers, every byte in every place",
        statuses * form.choose(100, 3),
        move |part, tally| {
            let status = STATUSES[(part % statuses) as usize];
            let record = match part / statuses {
                0 => admitted([status, 0, 0, 0, 0]),
                1 => admitted([status, 0xFFFF, 0xFFFF, 0xFFFF, 0xFFFF]),
                _ => good(&mut form.draw(20, part), status),
            };
            let good = written(record);
            for place in 0..DIGITS {
                for byte in 0x00..=0xFF {
                    let mut line = good.clone();
                    line[place] = byte;
                    hold_line(tally, &line);
                }
            }
        },
    )
}

/// A part is a good line of letters, with capitals and small letters in every way.
pub fn cases(form: Form) -> Section {
    Section::of_calls(
        "answers, capitals and small letters",
        form.choose(1_000, 4),
        move |part, tally| {
            let mut draw = form.draw(21, part);
            let flags = draw.pick(&[0x08D5, 0x00C4]);
            let [steps, r, s] = [0; 3].map(|_| of_letters(&mut draw));
            let (status, letters) = [(0, 13), (6, 5), (8, 5), (9, 5)][part as usize % 4];
            let line = written(admitted([status, flags, steps, r, s]));
            for small in 0..1 << letters {
                // The letter of the flags stands in place 4, those of the numbers from place 6 on.
                let mut line = line.clone();
                make_small(&mut line, (small & 1) << 4 | (small >> 1) << 6);
                hold_line(tally, &line);
            }
        },
    )
}

/// Every length about the right one, those beside it often, and some that pass if only their lowest bits
/// are read.
fn near_and_far() -> Vec<usize> {
    let often = [DIGITS - 1, DIGITS, DIGITS + 1].repeat(10);
    let far = [64, 200, 256 + DIGITS, 65_536 + DIGITS];
    (0..=40).chain(often).chain(far).collect()
}

/// A part is a length.
pub fn lengths(form: Form) -> Section {
    let lengths = near_and_far();
    let parts = lengths.len() as u64;
    Section::of_calls("answers, lengths", parts, move |part, tally| {
        let mut draw = form.draw(22, part);
        for _ in 0..form.choose(10_000, 100) {
            hold_line(tally, &of_length(&mut draw, lengths[part as usize]));
        }
    })
}

/// One byte over and over, digits, or a good line with digits behind it, cut. One of four has a byte that
/// is none.
fn of_length(draw: &mut Draw, length: usize) -> Vec<u8> {
    let mut line = match draw.below(4) {
        0 => vec![draw.pick(b"0Ff?\0\xFF"); length],
        1 => digits(draw, length),
        _ => [good_line(draw), digits(draw, length)].concat(),
    };
    line.truncate(length);
    if draw.below(4) == 0 && length > 0 {
        line[draw.below(length as u32) as usize] = draw.pick(STRANGE);
    }
    line
}

/// A part is a status, of an answer or not, with each of the four numbers after it 0 and not 0.
pub fn statuses(form: Form) -> Section {
    Section::of_calls(
        "answers, statuses with numbers and zeros",
        256,
        move |part, tally| {
            let mut draw = form.draw(23, part);
            for there in 0..16_u32 {
                for _ in 0..form.choose(500, 8) {
                    let or_zero = |place: u32, number: u16| number * (there >> place & 1) as u16;
                    let record = [
                        part as u16,
                        or_zero(0, some_flags(&mut draw)),
                        or_zero(1, word(&mut draw).max(1)),
                        or_zero(2, word(&mut draw).max(1)),
                        or_zero(3, word(&mut draw).max(1)),
                    ];
                    hold_line(tally, &written(record));
                }
            }
        },
    )
}

/// Mostly one flag or all. One of eight words has a bit that is none.
fn some_flags(draw: &mut Draw) -> u16 {
    draw.pick(&[
        0x0001, 0x0004, 0x0010, 0x0040, 0x0080, 0x0800, ALL_FLAGS, 0x0002,
    ])
}

/// A part is a status, of an answer or beside those. Each word stands with zeros after it, and with what
/// else the status may have.
pub fn flags(form: Form) -> Section {
    let statuses = [&STATUSES[..], &[7, 10, 255]].concat();
    let parts = statuses.len() as u64;
    Section::of_calls("answers, words as flags", parts, move |part, tally| {
        let mut draw = form.draw(24, part);
        let status = statuses[part as usize];
        for flags in words(form, &mut draw) {
            let [_, _, steps, r, s] = good(&mut draw, status);
            hold_line(tally, &written([status, flags, 0, 0, 0]));
            hold_line(tally, &written([status, flags, steps, r, s]));
        }
    })
}

/// All; in the quick form those with at most two bits, all but one or two bits, and some that are drawn.
fn words(form: Form, draw: &mut Draw) -> Vec<u16> {
    if form.full {
        return (0..=0xFFFF).collect();
    }
    let is_near_an_end = |word: &u16| !(3..=13).contains(&word.count_ones());
    let drawn = (0..500).map(|_| draw.bits() as u16);
    let near = (0..=0xFFFF).filter(is_near_an_end);
    near.chain(drawn).collect()
}

/// A part is a combination of faults.
pub fn faults(form: Form) -> Section {
    let combinations = faulty::all();
    let parts = combinations.len() as u64;
    Section::of_calls(
        "answers, several faults at once",
        parts,
        move |part, tally| {
            let mut draw = form.draw(25, part);
            for _ in 0..form.choose(50_000, 1_000) {
                hold_line(tally, &faulty::line(&mut draw, combinations[part as usize]));
            }
        },
    )
}
