//! The reference of the roads says what the rule says, and the sections meet what they are for.

use comparison::form::Form;
use comparison::plan;
use comparison::refused_flags::Divide;
use comparison::roads::answer::Answer;
use comparison::roads::full;
use comparison::roads::held::unwritten;
use comparison::roads::loan::{ours, Loan};
use comparison::roads::operands::{at_borders, bytes_with, divisors, drawn, turning, words_with};
use comparison::roads::reference::{answer, faults, rounds, Road};
use comparison::sides::{self, Numbers};
use comparison::tally::Tally;
use comparison::trap::call::Call;
use comparison::trap::reference::quotient;
use oracle::draw::Draw;
use std::collections::BTreeSet;
use std::sync::atomic::{AtomicU64, Ordering};

const QUICK: Form = Form {
    full: false,
    seed: 1,
};

const FULL: Form = Form {
    full: true,
    seed: 1,
};

fn call(mode: u8, dividend: u32, divisor: u16) -> Call {
    Call {
        mode,
        dividend,
        divisor,
    }
}

fn told(roads: [u16; 2]) -> Answer {
    Answer::new(0, roads)
}

/// With REP and without.
fn hold(mode: u8, rows: &[(u32, u16, [u16; 2])]) {
    for &(dividend, divisor, roads) in rows {
        for mode in [mode, mode | 0x04] {
            let call = call(mode, dividend, divisor);
            assert_eq!(answer(call), told(roads), "{call}");
        }
    }
}

/// The two of the scope first. By FF each round of FEFF has FE left, whose top bit is shifted out; by 80 each of
/// 7FFF compares FF. 9000 by C0 is C0: 120 by a bit shifted out, then 60 is left, and C0 by no borrow.
#[test]
fn unsigned_by_hand() {
    hold(
        0x00,
        &[
            (0x00FF, 0xFF, [0, 1]),
            (0x0100, 0xC8, [1, 0]),
            (0x0000, 0x01, [0, 0]),
            (0x00FF, 0x01, [0, 8]),
            (0x7FFF, 0x80, [0, 8]),
            (0xFEFF, 0xFF, [8, 0]),
            (0x8000, 0xC0, [4, 0]),
            (0x9000, 0xC0, [1, 1]),
        ],
    );
    hold(
        0x01,
        &[
            (0x0000_FFFF, 0x0001, [0, 16]),
            (0x7FFF_FFFF, 0x8000, [0, 16]),
            (0xFFFE_FFFF, 0xFFFF, [16, 0]),
            (0x0001_0000, 0xC800, [1, 0]),
            (0x9000_0000, 0xC000, [1, 1]),
        ],
    );
}

/// No bit is ever shifted out, by the lowest divisor either.
#[test]
fn signed_by_hand() {
    hold(
        0x02,
        &[
            (0xFF81, 0x01, [0, 7]),
            (0xFFF9, 0x02, [0, 2]),
            (0x0007, 0xFE, [0, 2]),
            (0x3FFF, 0x80, [0, 7]),
            (0xC001, 0x80, [0, 7]),
        ],
    );
    hold(
        0x03,
        &[
            (0xFFFF_8001, 0x0001, [0, 15]),
            (0x3FFF_FFFF, 0x8000, [0, 15]),
            (0xC000_0001, 0x8000, [0, 15]),
        ],
    );
}

#[test]
fn rounds_by_hand() {
    use Road::{Borrow, NoBorrow, ShiftedOut};
    let roads: Vec<Road> = rounds(Divide::new(8, false, 0x9001, 0xC0)).collect();
    let [first, second, rest @ ..] = &roads[..] else {
        panic!("{roads:?}")
    };
    assert_eq!((*first, *second), (ShiftedOut, NoBorrow));
    assert_eq!(rest, [Borrow; 6]);
}

/// Each alone, and with those that are tested after it.
#[test]
fn refusals_have_their_order() {
    for (mode, dividend, divisor, status) in [
        (0x08, 0x00FF, 0xFF, 4),
        (0xFF, 0x1_0000, 0x100, 4),
        (0x08, 0x0000, 0x00, 4),
        (0x0A, 0x0080, 0x01, 4),
        (0x00, 0x1_0000, 0xFF, 5),
        (0x00, 0x1_0000, 0x01, 5),
        (0x00, 0x1_0000, 0x00, 5),
        (0x06, 0x0000, 0x100, 5),
        (0x00, 0x0000, 0x00, 6),
        (0x02, 0x8000, 0x00, 6),
        (0x00, 0x0100, 0x01, 8),
        (0x02, 0x8000, 0x80, 8),
        (0x02, 0x0080, 0x01, 9),
        (0x02, 0xFF80, 0x01, 9),
        (0x06, 0xFF80, 0x01, 9),
        (0x03, 0x4000_0000, 0x8000, 9),
        (0x05, 0x0001_0000, 0x0001, 8),
    ] {
        let given = answer(call(mode, dividend, divisor));
        assert_eq!(given, Answer::refused(status), "{mode:02X} {dividend:X}");
    }
}

/// Quotient and steps of accepted divides, as docs/CHARTS.md has them.
const DIVIDED: [(u8, u32, u16, u16, u16); 8] = [
    (0x00, 0x00FF, 0x00FF, 0x0001, 80),
    (0x00, 0x0100, 0x00C8, 0x0001, 79),
    (0x00, 0x0007, 0x0002, 0x0003, 81),
    (0x02, 0xFF81, 0x0001, 0x0081, 111),
    (0x06, 0xFF81, 0x0001, 0x007F, 111),
    (0x02, 0xFFF9, 0x0002, 0x00FD, 106),
    (0x02, 0xFFF9, 0x00FE, 0x0003, 105),
    (0x03, 0xFFFF_8001, 0x0001, 0x8001, 183),
];

#[test]
fn a_full_divide_tells_both_tallies() {
    for (mode, dividend, divisor, r, steps) in DIVIDED {
        let call = call(mode, dividend, divisor);
        let right = answer(call);
        let differs = |told: Answer, steps: u16| {
            let divided = Numbers {
                steps,
                r,
                ..sides::refused(0)
            };
            full::parts(["", "", ""], call, &told, &divided).map(|part| part.1)
        };
        assert_eq!(differs(right, steps), [false, false, false], "{call}");
        assert_eq!(differs(right, steps - 1), [false, false, true]);
        let [shifted_out, no_borrow] = right.roads();
        assert!(differs(told([shifted_out + 1, no_borrow]), steps)[1]);
        assert!(differs(told([no_borrow, shifted_out]), steps)[2]);
        assert!(differs(Answer::refused(6), steps)[0]);
    }
}

/// Three fourths are accepted, and of the unsigned ones many have ones by a bit shifted out, many by both roads.
#[test]
fn drawn_calls_are_worth_asking() {
    let mut draw = Draw::new(1);
    for mode in 0x00..=0x07 {
        let told: Vec<Answer> = (0..10_000)
            .map(|_| answer(drawn(&mut draw, mode)))
            .collect();
        let count = |which: fn(&&Answer) -> bool| told.iter().filter(which).count();
        assert!(count(|told| told.status == 0) > 7_500);
        let shifted_out = count(|told| told.shifted_out > 0);
        let both = count(|told| told.shifted_out > 0 && told.no_borrow > 0);
        match mode & 0x02 {
            0 => assert!(both > 1_000 && shifted_out > 2_000, "{shifted_out}, {both}"),
            _ => assert_eq!(shifted_out, 0),
        }
    }
}

/// Those about 2^15 and 2^16 are among them, no divisor comes twice, and by each some divides are accepted and some
/// are refused, but by 0.
#[test]
fn borders_have_both_sides() {
    let divisors = divisors();
    let named = [
        0x7FFE, 0x7FFF, 0x8000, 0x8001, 0x8002, 0xFFFE, 0xFFFF, 0, 1, 2, 0xC000, 0x0180,
    ];
    assert!(named.iter().all(|divisor| divisors.contains(divisor)));
    assert!(divisors.windows(2).all(|pair| pair[0] < pair[1]));
    for &divisor in &divisors[1..] {
        for mode in [0x01, 0x03, 0x05, 0x07] {
            let of_mode = at_borders(divisor).filter(|call| call.mode == mode);
            let statuses: BTreeSet<u8> = of_mode.map(|call| answer(call).status).collect();
            let is_signed = mode & 0x02 != 0;
            assert!(statuses.contains(&0) && statuses.contains(&8));
            assert_eq!(statuses.contains(&9), is_signed, "{divisor:04X}");
        }
    }
}

/// What the rounds of a divide that is accepted compare.
fn compared(call: Call) -> Vec<u64> {
    let Divide {
        bits,
        dividend,
        divisor,
        ..
    } = Divide::from(call.divide(0));
    let number = |place| 2 * ((dividend >> (place + 1)) % divisor) + (dividend >> place) % 2;
    (0..bits).map(number).collect()
}

/// By a large divisor rounds turn at the divisor and at 2^16, by another at the divisor alone. A tenth of the draws
/// is at, below and above each.
#[test]
fn rounds_turn_where_they_should() {
    for (mode, divisor, turns) in [
        (0x01, 0xC000, &[0xC000, 0x1_0000][..]),
        (0x05, 0x8001, &[0x8001, 0x1_0000]),
        (0x01, 0x8000, &[0x8000]),
        (0x03, 0x8000, &[0x8000]),
        (0x07, 0xFFF9, &[0x0007]),
        (0x03, 0x0123, &[0x0123]),
    ] {
        let mut draw = Draw::new(1);
        let calls: Vec<Call> = (0..10_000)
            .map(|_| turning(&mut draw, mode, divisor))
            .collect();
        let refused = calls.iter().filter(|call| answer(**call).status != 0);
        assert!(refused.count() < 1_000, "{divisor:04X}");
        for number in turns.iter().flat_map(|turn| turn - 1..=turn + 1) {
            let meets = |call: &&Call| compared(**call).contains(&number);
            assert!(calls.iter().filter(meets).count() > 1_000, "{number:X}");
        }
    }
}

/// How many calls there were of each combination of a wrong mode, a wrong size and a refused divide, in bits.
static MET: [AtomicU64; 8] = [const { AtomicU64::new(0) }; 8];

fn counted(call: Call, loan: &mut Loan) -> u8 {
    let [mode, size, divide @ ..] = faults(call);
    let place = usize::from(mode) | usize::from(size) << 1;
    let refused = usize::from(divide.contains(&true));
    MET[place | refused << 2].fetch_add(1, Ordering::Relaxed);
    ours(call, loan)
}

#[test]
fn modes_and_limits_meet_every_combination_of_refusals() {
    let mut sections = plan::sections(QUICK).into_iter();
    let section = sections.find(|section| section.name == "roads, modes and limits");
    let tally = Tally::new(sides::ours).with_roads(counted);
    let tally = section.unwrap().run(1, &tally);
    let met = MET.each_ref().map(|count| count.load(Ordering::Relaxed));
    assert_eq!(met.iter().sum::<u64>(), tally.compared);
    assert!(met.iter().all(|&count| count > 1_000), "{met:?}");
}

/// In the full form each divisor comes with each of its remainders, and so each pair that has the quotient.
#[test]
fn equal_quotients_are_equal_and_all() {
    let mut draw = Draw::new(1);
    for value in [0x00, 0x01, 0x7F, 0x80, 0xFF] {
        for (form, count) in [(QUICK, 3 * 255), (FULL, 255 * 256 / 2)] {
            let calls = bytes_with(form, &mut draw, value);
            assert_eq!(calls.len(), count);
            assert!(calls.iter().all(|call| is_of(*call, value)));
        }
        let all = bytes_with(FULL, &mut draw, value);
        let pairs: BTreeSet<(u32, u16)> = all
            .into_iter()
            .map(|call| (call.dividend, call.divisor))
            .collect();
        assert_eq!(pairs.len(), 255 * 256 / 2);
        let words = words_with(&mut draw, 0x101 * value);
        assert!(words.iter().all(|call| is_of(*call, 0x101 * value)));
    }
}

fn is_of(call: Call, value: u32) -> bool {
    quotient(call) == Some(value.into()) && answer(call).status == 0
}

#[test]
fn what_was_not_written_shows() {
    let mut draw = Draw::new(1);
    for _ in 0..1_000 {
        assert!(unwritten(&mut draw).iter().all(|&number| number >= 0x8000));
    }
    let loan = Loan::over([0, 0]);
    let mut guards = loan.before.iter().chain(&loan.after);
    assert!(guards.all(|&guard| guard > 16 && guard & 0xFF > 16));
    assert!(!loan.is_written_beside());
}
