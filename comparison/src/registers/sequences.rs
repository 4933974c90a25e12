//! The sections of sequences: a fresh record, or one whose total is nearly full, and hundreds of calls over it.

use super::call::{Call, Record};
use super::operands::{any_record, nearly_full, operations};
use super::sequence::Sequence;
use crate::form::Form;
use crate::section::Section;
use crate::tally::Tally;
use oracle::draw::Draw;
use oracle::request::{Operation, ALL_FLAGS};

/// A part is a sequence over a fresh record.
pub fn fresh(form: Form) -> Section {
    let name = "registers, sequences";
    Section::of_calls(name, sequences(form), move |part, tally| {
        let mut draw = form.draw(44, part);
        let record = any_record(&mut draw);
        let sequence = Sequence::over(Record { total: 0, ..record });
        run(tally, &mut draw, sequence, length(part));
    })
}

/// A part is a sequence that starts so near the largest total that most come to it.
pub fn into_the_end(form: Form) -> Section {
    let name = "registers, sequences into the end";
    Section::of_calls(name, sequences(form), move |part, tally| {
        let mut draw = form.draw(45, part);
        let total = nearly_full(&mut draw, 20_000);
        let record = any_record(&mut draw);
        let sequence = Sequence::over(Record { total, ..record });
        run(tally, &mut draw, sequence, length(part));
    })
}

fn sequences(form: Form) -> u64 {
    form.choose(20_000, 320)
}

/// Hundreds of calls; in one sequence of sixteen thousands, so that a total from 0 on passes sixteen bits.
fn length(part: u64) -> u64 {
    match part % 16 {
        0 => 3_000,
        short => 100 + 20 * short,
    }
}

fn run(tally: &mut Tally, draw: &mut Draw, mut sequence: Sequence, length: u64) {
    let operations = operations();
    for _ in 0..length {
        let call = next(draw, &operations, &mut sequence);
        sequence.hold(tally, draw, call);
    }
}

/// The next call. Half of the time the record is left as the call before has left it; as often an X is stored with
/// which a divide is mostly done; now and then any registers are, or any word as flags, which mostly lets nothing
/// through until flags are stored again.
fn next(draw: &mut Draw, operations: &[Operation], sequence: &mut Sequence) -> Call {
    let request = draw.request(operations);
    let mut stored = sequence.record;
    match draw.below(16) {
        0..=6 => {}
        7 => stored = any_record(draw),
        8 => stored.flags = draw.bits() as u16,
        _ => {
            stored.take(request);
            stored.flags &= ALL_FLAGS;
        }
    }
    if stored != sequence.record {
        sequence.store(stored);
    }
    let (op, mode) = request.operation().code();
    let y = request.y();
    spoilt(draw, Call { op, mode, y })
}

/// One call of eight has an op, a mode or a Y that may be none.
fn spoilt(draw: &mut Draw, call: Call) -> Call {
    let any = draw.bits();
    match draw.below(24) {
        0 => Call {
            op: any as u8,
            ..call
        },
        1 => Call {
            mode: any as u8,
            ..call
        },
        2 => Call {
            y: any as u16,
            ..call
        },
        _ => call,
    }
}
