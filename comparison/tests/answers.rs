//! The reference of answer lines says what the scope says, and the sections meet what they are for.

use comparison::answers::call::Call;
use comparison::answers::lines::{good, in_any_case, written, STATUSES};
use comparison::answers::loan::{ours, Loan};
use comparison::answers::reference::{faults, lines, next, read, Next};
use comparison::answers::{faulty, texts, walk};
use comparison::form::Form;
use comparison::plan;
use comparison::sides;
use comparison::tally::Tally;
use oracle::draw::Draw;
use std::sync::atomic::{AtomicU64, Ordering};

/// Status, flags, steps, R and S, worked out on paper.
#[test]
fn records_by_hand() {
    for (line, record) in [
        ("000001005100030001", [0, 0x0001, 0x0051, 0x0003, 0x0001]),
        ("000000000000000000", [0, 0, 0, 0, 0]),
        ("0008D5FFFFABCDEF09", [0, 0x08D5, 0xFFFF, 0xABCD, 0xEF09]),
        ("0008d5ffffabcdef09", [0, 0x08D5, 0xFFFF, 0xABCD, 0xEF09]),
        ("0008d5FfFfaBcDEf09", [0, 0x08D5, 0xFFFF, 0xABCD, 0xEF09]),
        ("010000000000000000", [1, 0, 0, 0, 0]),
        ("020000000000000000", [2, 0, 0, 0, 0]),
        ("050000000000000000", [5, 0, 0, 0, 0]),
        ("060044001100000000", [6, 0x0044, 0x0011, 0, 0]),
        ("0808D5FFFF00000000", [8, 0x08D5, 0xFFFF, 0, 0]),
        ("090014005F00000000", [9, 0x0014, 0x005F, 0, 0]),
        ("090000000000000000", [9, 0, 0, 0, 0]),
    ] {
        assert_eq!(read(line.as_bytes()), Ok(record), "{line}");
    }
}

/// Each refusal alone, and beside all that can come after it.
#[test]
fn refusals_have_their_order() {
    for (line, status) in [
        ("", 30),
        ("00000100510003000", 30),
        ("0000010051000300010", 30),
        ("000001005100030001\r", 30),
        ("07FFFF00510003000g", 31),
        ("00000100510003000g", 31),
        ("+00001005100030001", 31),
        ("00000100510003 001", 31),
        ("00000100510003000\n", 31),
        ("070000000000000000", 32),
        ("0A0000000000000000", 32),
        ("FF0000000000000000", 32),
        ("100000000000000000", 32),
        ("07000200FF00010001", 32),
        ("000002005100030001", 33),
        ("00F72A000000000000", 33),
        ("008000000000000000", 33),
        ("010002000000000000", 33),
        ("060002000000010000", 33),
        ("010001000000000000", 34),
        ("020000000100000000", 34),
        ("030000000000010000", 34),
        ("050000000000000001", 34),
        ("060000000000010000", 34),
        ("080000000000008000", 34),
        ("090014005F00000001", 34),
    ] {
        assert_eq!(read(line.as_bytes()), Err(status), "{line}");
    }
    let long = [&b"07FFFF"[..], &[b'?'; 200]].concat();
    assert_eq!(read(&long), Err(30));
}

/// A good line stays the same when it is written and read, in any case.
#[test]
fn what_is_written_is_read() {
    let mut draw = Draw::new(1);
    for turn in 0..90_000 {
        let record = good(&mut draw, STATUSES[turn % STATUSES.len()]);
        let line = in_any_case(&mut draw, written(record));
        assert_eq!(read(&line), Ok(record));
    }
}

#[test]
fn lines_end_at_a_feed_or_with_the_text() {
    let of = |text: &'static str| -> Vec<&[u8]> { lines(text.as_bytes()).collect() };
    assert!(of("").is_empty());
    assert_eq!(of("\n"), [b""]);
    assert_eq!(of("a"), [b"a"]);
    assert_eq!(of("a\n"), [b"a"]);
    assert_eq!(of("a\n\nbc"), [&b"a"[..], b"", b"bc"]);
    assert_eq!(of("\n\n"), [b"", b""]);
}

#[test]
fn the_next_line_starts_at_the_place() {
    let text = b"000001005100030001\n\n090014005F00000000";
    let of = |place| next(text, place);
    let read = |read, past| Some(Next { read, past });
    assert_eq!(of(0), read(Ok([0, 1, 0x51, 3, 1]), 19));
    assert_eq!(of(1), read(Err(30), 19));
    assert_eq!(of(18), read(Err(30), 19));
    assert_eq!(of(19), read(Err(30), 20));
    assert_eq!(of(20), read(Ok([9, 0x14, 0x5F, 0, 0]), 38));
    assert_eq!(of(37), read(Err(30), 38));
    for past in [38, 39, usize::MAX] {
        assert_eq!(of(past), None);
    }
    assert_eq!(next(b"", 0), None);
}

/// Two lines, an empty one and the end twice, in variables that start with anything.
#[test]
fn a_walk_by_hand() {
    let text = b"010000000000000000\n\n060044001100000000\n";
    let mut tally = Tally::new(sides::ours);
    let steps = walk::hold(&mut tally, text);
    let told: Vec<_> = steps
        .iter()
        .map(|step| (step.status, step.record, step.start, step.place))
        .collect();
    let first = [1, 0, 0, 0, 0];
    let third = [6, 0x44, 0x11, 0, 0];
    assert_eq!(
        told,
        [(0, first, 0, 19), (30, first, 19, 20), (0, third, 20, 39)]
    );
    assert_eq!((tally.compared, tally.differing), (5, 0));
}

/// How many lines there were of each combination of the five refusals, in bits.
static MET: [AtomicU64; 32] = [const { AtomicU64::new(0) }; 32];

fn counted(call: Call, loan: &mut Loan) -> u8 {
    if let Call::Read(line) = call {
        let bits = faults(line).into_iter().rev();
        let bits = bits.fold(0, |bits, applies| bits << 1 | usize::from(applies));
        MET[bits].fetch_add(1, Ordering::Relaxed);
    }
    ours(call, loan)
}

/// All 23 that can be, and lines that are read.
#[test]
fn every_combination_of_refusals_is_met() {
    let quick = Form {
        full: false,
        seed: 1,
    };
    let mut sections = plan::sections(quick).into_iter();
    let section = sections.find(|section| section.name == "answers, several faults at once");
    let tally = Tally::new(sides::ours).with_answers(counted);
    section.unwrap().run(1, &tally);
    for (bits, count) in MET.iter().enumerate() {
        let (count, excluded) = (count.load(Ordering::Relaxed), bits & 0b10100 == 0b10100);
        assert_eq!(count == 0, excluded, "{bits:05b}");
        assert!(excluded || count >= 1_000, "{bits:05b}: {count}");
    }
    assert_eq!(faulty::all().len(), 24);
}

/// Good lines and bad ones, with and without a last feed, feeds alone, and nothing.
#[test]
fn drawn_texts_are_worth_reading() {
    let mut draw = Draw::new(1);
    let texts: Vec<Vec<u8>> = (0..10_000).map(|_| texts::text(&mut draw)).collect();
    let of = |is_met: &dyn Fn(&Vec<u8>) -> bool| texts.iter().filter(|text| is_met(text)).count();
    assert!(of(&|text| text.is_empty()) > 100);
    assert!(of(&|text| text.len() > 1 && text.iter().all(|&byte| byte == b'\n')) > 100);
    assert!(of(&|text| text.ends_with(b"\n")) > 1_000);
    assert!(of(&|text| !text.is_empty() && !text.ends_with(b"\n")) > 1_000);
    let read: Vec<_> = texts
        .iter()
        .flat_map(|text| lines(text))
        .map(read)
        .collect();
    for status in STATUSES {
        let of_status = |read: &&Result<[u16; 5], u8>| read.is_ok_and(|record| record[0] == status);
        assert!(read.iter().filter(of_status).count() > 1_000, "{status}");
    }
    for refusal in 30..=34 {
        let count = read.iter().filter(|&&read| read == Err(refusal)).count();
        assert!(count > 1_000, "{refusal}: {count}");
    }
    let lengths: Vec<usize> = texts
        .iter()
        .flat_map(|text| lines(text))
        .map(<[u8]>::len)
        .collect();
    for length in [0, 17, 18, 19, 200] {
        let count = lengths.iter().filter(|&&each| each == length).count();
        assert!(count > 400, "{length}: {count}");
    }
}

/// What is not written is no record and no place.
#[test]
fn what_was_not_written_shows() {
    let mut loan = Loan::to(Call::Next(b"0", 0));
    assert!(loan.record.cells().iter().all(|&number| number > 0xFF));
    assert!(loan.start.cells()[0] > 1 << 32);
    assert_eq!(loan.text.whole[loan.text.room.end], b'\n');
}
