//! Answer lines that are read back by a wrong rule.

use comparison::answers::call::Call;
use comparison::answers::loan::{ours, Loan, Side};
use comparison::answers::reference::{faults, fields, lines, read, Record, END};

const BYTES: &str = "answers, every byte in every place";
const CASES: &str = "answers, capitals and small letters";
const LENGTHS: &str = "answers, lengths";
const STATUSES: &str = "answers, statuses with numbers and zeros";
const FLAGS: &str = "answers, words as flags";
const FAULTS: &str = "answers, several faults at once";
const TEXTS: &str = "answers, texts from every place";
const RUNS: &str = "answers, what a run wrote";

pub const SECTIONS: [&str; 8] = [BYTES, CASES, LENGTHS, STATUSES, FLAGS, FAULTS, TEXTS, RUNS];

/// Each wrong rule by its name, and the sections that have to find it.
pub const RULES: [(&str, Side, &[&str]); 23] = [
    (
        "31 before 30",
        |call, loan| by(call, loan, |line| in_order(line, &[1, 0, 2, 3, 4])),
        &[LENGTHS, FAULTS, TEXTS],
    ),
    (
        "33 before 32",
        |call, loan| by(call, loan, |line| in_order(line, &[0, 1, 3, 2, 4])),
        &[STATUSES, FLAGS, FAULTS, TEXTS],
    ),
    (
        "34 before 33",
        |call, loan| by(call, loan, |line| in_order(line, &[0, 1, 2, 4, 3])),
        &[STATUSES, FLAGS, FAULTS, TEXTS],
    ),
    (
        "flags outside 08D5 let through",
        |call, loan| by(call, loan, |line| in_order(line, &[0, 1, 2, 4])),
        &[BYTES, FLAGS, FAULTS],
    ),
    (
        "status 7 let through",
        |call, loan| by(call, loan, |line| let_through(line, b"07")),
        &[BYTES, STATUSES, FLAGS],
    ),
    (
        "status 10 let through",
        |call, loan| by(call, loan, |line| let_through(line, b"0A")),
        &[BYTES, STATUSES, FLAGS],
    ),
    (
        "steps of a refused divide judged",
        |call, loan| by(call, loan, steps_judged),
        &[CASES, STATUSES, TEXTS, RUNS],
    ),
    (
        "R and S of a refused divide not judged",
        |call, loan| by(call, loan, |line| unjudged(line, is_divide)),
        &[BYTES, STATUSES, FAULTS],
    ),
    (
        "flags of statuses 1 to 5 not judged",
        |call, loan| by(call, loan, |line| unjudged(line, has_flags_alone)),
        &[STATUSES, FLAGS, FAULTS],
    ),
    (
        "steps of statuses 1 to 5 not judged",
        |call, loan| by(call, loan, |line| unjudged(line, has_steps_alone)),
        &[BYTES, STATUSES, FAULTS],
    ),
    (
        "R and S exchanged",
        |call, loan| by(call, loan, exchanged),
        &[CASES, TEXTS, RUNS],
    ),
    (
        "small letters refused",
        |call, loan| by(call, loan, small_letters_refused),
        &[BYTES, CASES, TEXTS],
    ),
    (
        "a plus sign let through",
        |call, loan| by(call, loan, plus_let_through),
        &[BYTES],
    ),
    (
        "a carriage return dropped",
        |call, loan| by(call, loan, carriage_return_dropped),
        &[TEXTS],
    ),
    (
        "length by its lowest eight bits",
        |call, loan| by(call, loan, length_by_eight_bits),
        &[LENGTHS],
    ),
    (
        "record of a refusal",
        record_of_a_refusal,
        &[LENGTHS, STATUSES, FLAGS, FAULTS, TEXTS],
    ),
    (
        "bad line not moved past",
        bad_line_not_moved_past,
        &[LENGTHS, FAULTS, TEXTS],
    ),
    (
        "start told as the end",
        start_as_the_end,
        &[CASES, LENGTHS, TEXTS, RUNS],
    ),
    (
        "start told where no line is left",
        start_where_none_is_left,
        &[TEXTS, RUNS],
    ),
    ("tail dropped", tail_dropped, &[CASES, LENGTHS, TEXTS]),
    (
        "feed behind the tail counted",
        feed_behind_the_tail,
        &[CASES, LENGTHS, TEXTS],
    ),
    ("empty line passed over", empty_line_passed_over, &[TEXTS]),
    (
        "place past the end moved",
        place_past_the_end_moved,
        &[TEXTS],
    ),
];

/// The line that a call is to read.
fn line_of(call: Call<'_>) -> &[u8] {
    match call {
        Call::Read(line) => line,
        Call::Next(text, place) => lines(&text[place..]).next().expect("a line is left"),
    }
}

/// The port, but that lines are read by a wrong rule.
fn by(call: Call, loan: &mut Loan, rule: impl Fn(&[u8]) -> Result<Record, u8>) -> u8 {
    let before = loan.record.clone();
    if ours(call, loan) == END {
        return END;
    }
    loan.record = before;
    match rule(line_of(call)) {
        Ok(record) => {
            loan.record.cells().copy_from_slice(&record);
            0
        }
        Err(status) => status,
    }
}

/// The numbers of 18 digits, whatever else is amiss.
fn numbers(line: &[u8]) -> Record {
    fields(line).map(|field| field.expect("there are digits") as u16)
}

/// These refusals alone, by their places in the right order.
fn in_order(line: &[u8], order: &[usize]) -> Result<Record, u8> {
    let faults = faults(line);
    match order.iter().find(|&&place| faults[place]) {
        Some(&place) => Err(30 + place as u8),
        None => Ok(numbers(line)),
    }
}

/// Another status, with anything after it.
fn let_through(line: &[u8], status: &[u8; 2]) -> Result<Record, u8> {
    match (read(line), line) {
        (Err(32), [first, second, ..]) if [*first, *second].eq_ignore_ascii_case(status) => {
            in_order(line, &[3])
        }
        (read, _) => read,
    }
}

fn steps_judged(line: &[u8]) -> Result<Record, u8> {
    match read(line) {
        Ok([status, _, steps, _, _]) if status >= 6 && steps != 0 => Err(34),
        read => read,
    }
}

/// Some records are admitted in spite of numbers where their status has zeros.
fn unjudged(line: &[u8], which: fn(Record) -> bool) -> Result<Record, u8> {
    match read(line) {
        Err(34) if which(numbers(line)) => Ok(numbers(line)),
        read => read,
    }
}

fn is_divide(record: Record) -> bool {
    record[0] >= 6
}

fn has_flags_alone(record: Record) -> bool {
    matches!(record, [1..=5, _, 0, 0, 0])
}

fn has_steps_alone(record: Record) -> bool {
    matches!(record, [1..=5, 0, _, 0, 0])
}

fn exchanged(line: &[u8]) -> Result<Record, u8> {
    read(line).map(|[status, flags, steps, r, s]| [status, flags, steps, s, r])
}

fn small_letters_refused(line: &[u8]) -> Result<Record, u8> {
    let read = read(line)?;
    match line.iter().any(u8::is_ascii_lowercase) {
        true => Err(31),
        false => Ok(read),
    }
}

/// Before a number, where the standard library takes one too.
fn plus_let_through(line: &[u8]) -> Result<Record, u8> {
    let mut line = line.to_vec();
    for place in [0, 2, 6, 10, 14] {
        if let Some(byte @ b'+') = line.get_mut(place) {
            *byte = b'0';
        }
    }
    read(&line)
}

fn carriage_return_dropped(line: &[u8]) -> Result<Record, u8> {
    read(line.strip_suffix(b"\r").unwrap_or(line))
}

fn length_by_eight_bits(line: &[u8]) -> Result<Record, u8> {
    match line.len() % 256 {
        18 => read(&line[..18]),
        _ => Err(30),
    }
}

/// Answers as the port does, and makes something wrong of a refusal.
fn but_refused(call: Call, loan: &mut Loan, wrong: impl FnOnce(&mut Loan)) -> u8 {
    let status = ours(call, loan);
    if (30..=34).contains(&status) {
        wrong(loan);
    }
    status
}

fn record_of_a_refusal(call: Call, loan: &mut Loan) -> u8 {
    but_refused(call, loan, |loan| loan.record.cells().fill(0))
}

fn bad_line_not_moved_past(call: Call, loan: &mut Loan) -> u8 {
    but_refused(call, loan, |loan| {
        if let Call::Next(_, place) = call {
            loan.place.cells()[0] = place;
        }
    })
}

/// Answers as the port does, and makes something wrong of the next line of a text. The rule is given the
/// status and what there is of the text from the place on.
fn but_next(call: Call, loan: &mut Loan, wrong: impl FnOnce(u8, &[u8], &mut Loan)) -> u8 {
    let status = ours(call, loan);
    if let Call::Next(text, place) = call {
        wrong(status, text.get(place..).unwrap_or_default(), loan);
    }
    status
}

fn start_as_the_end(call: Call, loan: &mut Loan) -> u8 {
    but_next(call, loan, |status, _, loan| {
        if status != END {
            loan.start.cells()[0] = loan.place.cells()[0];
        }
    })
}

fn start_where_none_is_left(call: Call, loan: &mut Loan) -> u8 {
    but_next(call, loan, |status, _, loan| {
        if status == END {
            loan.start.cells()[0] = loan.place.cells()[0];
        }
    })
}

fn feed_behind_the_tail(call: Call, loan: &mut Loan) -> u8 {
    but_next(call, loan, |_, rest, loan| {
        if !rest.is_empty() && !rest.contains(&b'\n') {
            loan.place.cells()[0] += 1;
        }
    })
}

fn place_past_the_end_moved(call: Call, loan: &mut Loan) -> u8 {
    but_next(call, loan, |status, _, loan| {
        if status == END {
            loan.place.cells()[0] = call.text().len();
        }
    })
}

fn tail_dropped(call: Call, loan: &mut Loan) -> u8 {
    match call {
        Call::Next(text, place) if !text[place.min(text.len())..].contains(&b'\n') => END,
        _ => ours(call, loan),
    }
}

fn empty_line_passed_over(call: Call, loan: &mut Loan) -> u8 {
    let mut call = call;
    while let Call::Next(text, place) = call {
        if text.get(place) != Some(&b'\n') {
            break;
        }
        loan.place.cells()[0] = place + 1;
        call = Call::Next(text, place + 1);
    }
    ours(call, loan)
}
