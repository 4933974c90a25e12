//! All of 16 bits that can be asked: every shift and rotate in a section, and every sum, difference and product in
//! blocks, one after another, which take too long for a section.

use crate::asked::Asked;
use crate::form::Form;
use crate::section::Section;
use crate::tally::Tally;
use oracle::request::ALL_FLAGS;
use std::time::Duration;

const WORD: u8 = 0x01;
const MULTIPLY: u8 = 0x10;
const CARRY: u16 = 0x0001;

/// SHL to SHL with A.
const SHIFTS: std::ops::RangeInclusive<u8> = 0x05..=0x0C;

/// Every X and every count with no flag and with all. A part is an op and the upper half of X.
pub fn shifts(form: Form) -> Section {
    let parts = SHIFTS.count() as u64 * 256;
    Section::of_requests("16 bits, shifts and rotates", parts, move |part, tally| {
        let (op, upper) = (SHIFTS.start() + (part / 256) as u8, (part % 256) as u32);
        for lower in form.some_bytes(&mut form.draw(40, part), 4) {
            for y in 0..=0xFF {
                for flags in [0, ALL_FLAGS] {
                    let x = upper << 8 | lower;
                    tally.hold(Asked {
                        op,
                        mode: WORD,
                        flags,
                        x,
                        y,
                    });
                }
            }
        }
    })
}

/// An op, a mode and a flags word, of which every X and every Y is asked.
#[derive(Clone, Copy)]
struct Pairs {
    op: u8,
    mode: u8,
    flags: u16,
}

/// ADD, ADC, SUB and SBB with C clear and set, then multiply in its four modes.
fn jobs() -> Vec<Pairs> {
    let sum = |op, flags| Pairs {
        op,
        mode: WORD,
        flags,
    };
    let sums = (0x00..=0x03).flat_map(|op| [0, CARRY].map(|flags| sum(op, flags)));
    let product = |mode| Pairs {
        op: MULTIPLY,
        mode,
        flags: 0,
    };
    sums.chain([0x01, 0x03, 0x05, 0x07].map(product)).collect()
}

/// The blocks of one job: each has so many values of X, with every Y.
const BLOCKS_A_JOB: u64 = 16;
const X_A_BLOCK: u64 = 0x1_0000 / BLOCKS_A_JOB;

/// How many blocks there are.
pub fn blocks() -> u64 {
    jobs().len() as u64 * BLOCKS_A_JOB
}

/// One block. A part is an X.
pub fn block(number: u64) -> Section {
    let Pairs { op, mode, flags } = jobs()[(number / BLOCKS_A_JOB) as usize];
    let first = number % BLOCKS_A_JOB * X_A_BLOCK;
    Section::of_requests("16 bits, every pair", X_A_BLOCK, move |part, tally| {
        let x = (first + part) as u32;
        for y in 0..=0xFFFF {
            tally.hold(Asked {
                op,
                mode,
                flags,
                x,
                y,
            });
        }
    })
}

/// Runs the blocks from `from` on, and after each calls `said` with the number of the next one, what was seen
/// so far and how long the rest will take.
pub fn run(from: u64, threads: usize, tally: Tally, said: impl Fn(u64, &Tally, Duration)) -> Tally {
    let start = std::time::Instant::now();
    let mut sum = tally;
    for number in from..blocks() {
        let seen = block(number).run(threads, &sum);
        sum.add(seen);
        let done = (number + 1 - from) as u32;
        let left = (blocks() - number - 1) as u32;
        said(number + 1, &sum, start.elapsed() / done * left);
    }
    sum
}
