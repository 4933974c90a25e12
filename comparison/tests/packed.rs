//! The reference of packed digits says what the scope says, and the sections meet what they are for.

use comparison::form::Form;
use comparison::packed::call::{Call, Operation};
use comparison::packed::digits::{packed, unpacked};
use comparison::packed::loan::{ours, Loan};
use comparison::packed::reference::{answer, faults, sum, LONGEST};
use comparison::packed::runs::Run;
use comparison::packed::strings::operands;
use comparison::plan;
use comparison::sides;
use comparison::tally::Tally;
use oracle::draw::Draw;
use std::sync::atomic::{AtomicU64, Ordering};
use Operation::{Add, Subtract};

/// The packed digits of a number that is written as people do.
fn bytes(number: &str) -> Vec<u8> {
    let digits: Vec<u8> = number.bytes().rev().map(|digit| digit - b'0').collect();
    packed(&digits)
}

/// Each with the carry or borrow that comes in, and with the one that comes out.
#[test]
fn sums_by_hand() {
    for (operation, x, y, carry, expected, out) in [
        (Add, "99", "01", false, "00", true),
        (Add, "99", "99", true, "99", true),
        (Add, "00", "00", true, "01", false),
        (Add, "09", "00", true, "10", false),
        (Add, "45", "54", false, "99", false),
        (Add, "45", "54", true, "00", true),
        (Add, "1234", "8766", false, "0000", true),
        (Add, "738123", "000028", false, "738151", false),
        (Subtract, "00", "61", false, "39", true),
        (Subtract, "61", "61", false, "00", false),
        (Subtract, "61", "61", true, "99", true),
        (Subtract, "10", "01", false, "09", false),
        (Subtract, "1000", "0001", false, "0999", false),
        (Subtract, "738151", "000028", false, "738123", false),
    ] {
        let (x, y) = (bytes(x), bytes(y));
        let call = Call::new(operation, &x, &y, carry);
        let given = answer(call).unwrap();
        assert_eq!((given.bytes, given.carry), (bytes(expected), out), "{call}");
    }
}

/// 0099 + 0001 = 0100.
#[test]
fn the_lowest_byte_stands_first() {
    let given = sum(Call::new(Add, &[0x99, 0x00], &[0x01, 0x00], false));
    assert_eq!(given.bytes, [0x00, 0x01]);
}

/// The number that packed digits are, read as text.
fn number(bytes: &[u8]) -> i128 {
    let digits = unpacked(bytes).into_iter().rev();
    let text: String = digits.map(|digit| char::from(b'0' + digit)).collect();
    text.parse().unwrap()
}

/// Of as many bytes as 128 bits hold: modulo 10^(2L), with a carry or borrow if that changes the number.
#[test]
fn sums_are_those_of_numbers() {
    let mut draw = Draw::new(1);
    for turn in 0..100_000 {
        let (operation, length) = (draw.pick(&Operation::ALL), 1 + turn % 18);
        let [x, y] = operands(&mut draw, operation, length);
        let call = Call::new(operation, &x, &y, draw.below(2) == 0);
        let (given, carry) = (sum(call), i128::from(call.carry));
        let past = 10_i128.pow(2 * length as u32);
        let exact = match operation {
            Add => number(&x) + number(&y) + carry,
            Subtract => number(&x) - number(&y) - carry,
        };
        let left = exact.rem_euclid(past);
        assert_eq!(
            (number(&given.bytes), given.carry),
            (left, left != exact),
            "{call}"
        );
    }
}

/// Lengths of X and Y, whether X has a digit over 9, the room and the status. Each refusal alone, and
/// beside all that come after it.
#[test]
fn refusals_have_their_order() {
    for (lengths, over_nine, room, status) in [
        ([2, 3], false, 3, 20),
        ([33, 34], true, 0, 20),
        ([0, 0], false, 0, 21),
        ([33, 33], false, 33, 21),
        ([33, 33], true, 0, 21),
        ([32, 32], true, 32, 22),
        ([32, 32], true, 31, 22),
        ([32, 32], false, 31, 23),
        ([1, 1], false, 0, 23),
    ] {
        let [mut x, y] = lengths.map(|length| vec![0x99; length]);
        if over_nine {
            x[0] = 0x9A;
        }
        for operation in Operation::ALL {
            let call = Call::new(operation, &x, &y, false).in_room(room);
            assert_eq!(answer(call), Err(status), "{call}");
        }
    }
}

#[test]
fn every_limit_is_admitted() {
    for (byte, length) in [
        (0x00, 1),
        (0x99, 1),
        (0x99, LONGEST),
        (0x09, LONGEST),
        (0x90, LONGEST),
    ] {
        let bytes = vec![byte; length];
        let call = Call::new(Add, &bytes, &bytes, true);
        assert!(answer(call).is_ok(), "{call}");
    }
}

#[test]
fn bytes_with_a_digit_over_nine_are_refused() {
    let zero = [0x00];
    for byte in 0x00..=0xFF_u8 {
        let is_decimal = format!("{byte:02X}")
            .bytes()
            .all(|digit| digit.is_ascii_digit());
        let expected = if is_decimal { None } else { Some(22) };
        for (x, y) in [([byte], zero), (zero, [byte])] {
            let call = Call::new(Subtract, &x, &y, false);
            assert_eq!(answer(call).err(), expected, "{call}");
        }
    }
}

/// What a run hands on comes out as 0s of a carry and as 9s of a borrow, and as the other if there is none.
#[test]
fn runs_hand_on_what_comes_in() {
    let mut draw = Draw::new(1);
    for operation in Operation::ALL {
        for run in Run::all(3) {
            let [x, y] = run.operands(&mut draw, operation);
            for carry in [false, true] {
                let given = sum(Call::new(operation, &x, &y, carry));
                let comes_in = carry || run.from > 0;
                let digit = if comes_in == (operation == Add) { 0 } else { 9 };
                let digits = &unpacked(&given.bytes)[run.from..run.to];
                assert!(digits.iter().all(|&each| each == digit), "{run:?}");
                assert_eq!(given.carry, comes_in && run.to == run.digits, "{run:?}");
            }
        }
    }
    assert_eq!(Run::all(3).count(), 7 * 8 / 2);
}

/// Out of the lowest four of 32 bytes.
#[test]
fn drawn_strings_hand_a_carry_far() {
    let mut draw = Draw::new(1);
    for operation in Operation::ALL {
        let far = (0..10_000).filter(|_| {
            let [x, y] = operands(&mut draw, operation, LONGEST);
            let of = |carry| sum(Call::new(operation, &x, &y, carry));
            of(false).bytes[4..] != of(true).bytes[4..]
        });
        assert!(far.count() > 2_000);
    }
}

/// How many calls there were of each combination of the four refusals, in bits.
static MET: [AtomicU64; 16] = [const { AtomicU64::new(0) }; 16];

fn counted(call: Call, loan: &mut Loan) -> u8 {
    let bits = faults(call).into_iter().rev();
    let bits = bits.fold(0, |bits, applies| bits << 1 | usize::from(applies));
    MET[bits].fetch_add(1, Ordering::Relaxed);
    ours(call, loan)
}

/// All fifteen, and calls that are admitted.
#[test]
fn lengths_and_rooms_meet_every_combination_of_refusals() {
    let quick = Form {
        full: false,
        seed: 1,
    };
    let mut sections = plan::sections(quick).into_iter();
    let section = sections.find(|section| section.name == "packed, lengths and rooms");
    let tally = Tally::new(sides::ours).with_packed(counted);
    let tally = section.unwrap().run(1, &tally);
    let met = MET.each_ref().map(|count| count.load(Ordering::Relaxed));
    assert_eq!(met.iter().sum::<u64>(), tally.compared);
    assert!(met.iter().all(|&count| count > 100), "{met:?}");
}

#[test]
fn a_carry_that_was_not_written_shows() {
    let mut loan = Loan::to(Call::new(Add, &[0x00], &[0x00], false));
    assert!(loan.carry.bytes()[0] > 1);
}
