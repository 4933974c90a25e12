//! The reference of what would trap says what the rule says, and the sections meet what they are for.

use comparison::form::Form;
use comparison::plan;
use comparison::sides;
use comparison::tally::Tally;
use comparison::trap::call::{Answer, Call};
use comparison::trap::held::UNWRITTEN;
use comparison::trap::loan::{ours, Loan};
use comparison::trap::operands::{about_limits, at_borders, at_ends, drawn};
use comparison::trap::reference::{answer, faults};
use oracle::draw::Draw;
use std::sync::atomic::{AtomicU64, Ordering};

fn told(mode: u8, dividend: u32, divisor: u16) -> Answer {
    answer(Call {
        mode,
        dividend,
        divisor,
    })
}

/// With REP and without.
fn hold(mode: u8, rows: &[(u32, u16, bool)]) {
    for &(dividend, divisor, traps) in rows {
        for mode in [mode, mode | 0x04] {
            let given = told(mode, dividend, divisor);
            assert_eq!(
                given,
                Answer::told(traps),
                "{mode:02X} {dividend:X} {divisor:X}"
            );
        }
    }
}

#[test]
fn unsigned_by_hand() {
    hold(
        0x00,
        &[
            (0x0000, 0x00, true),
            (0x0000, 0x01, false),
            (0x00FF, 0x01, false),
            (0x0100, 0x01, true),
            (0x7FFF, 0x80, false),
            (0x8000, 0x80, true),
            (0xFEFF, 0xFF, false),
            (0xFF00, 0xFF, true),
        ],
    );
    hold(
        0x01,
        &[
            (0x0000_0000, 0x0000, true),
            (0x0000_FFFF, 0x0001, false),
            (0x0001_0000, 0x0001, true),
            (0xFFFE_FFFF, 0xFFFF, false),
            (0xFFFF_0000, 0xFFFF, true),
        ],
    );
}

/// By 1, -1, the largest divisor and the lowest.
#[test]
fn signed_by_hand() {
    hold(
        0x02,
        &[
            (0x0000, 0x00, true),
            (0x007F, 0x01, false),
            (0x0080, 0x01, true),
            (0xFF81, 0x01, false),
            (0xFF80, 0x01, true),
            (0x0080, 0xFF, true),
            (0xFF80, 0xFF, true),
            (0x3F7F, 0x7F, false),
            (0x3F80, 0x7F, true),
            (0x3FFF, 0x80, false),
            (0x4000, 0x80, true),
            (0x8000, 0x80, true),
            (0x8000, 0xFF, true),
        ],
    );
    hold(
        0x03,
        &[
            (0x0000_7FFF, 0x0001, false),
            (0x0000_8000, 0x0001, true),
            (0xFFFF_8001, 0xFFFF, false),
            (0xFFFF_8000, 0xFFFF, true),
            (0xC000_0001, 0x8000, false),
            (0xC000_0000, 0x8000, true),
            (0x8000_0000, 0x8000, true),
            (0x8000_0000, 0xFFFF, true),
        ],
    );
}

/// Each alone, and both.
#[test]
fn refusals_have_their_order() {
    for (mode, dividend, divisor, status) in [
        (0x08, 0, 1, 4),
        (0x80, 0, 1, 4),
        (0xFF, 0, 1, 4),
        (0x08, 0x1_0000, 0x100, 4),
        (0x00, 0x1_0000, 1, 5),
        (0x02, 0xFFFF_FF80, 1, 5),
        (0x04, 0, 0x100, 5),
        (0x06, 0x1_0000, 0xFFFF, 5),
    ] {
        assert_eq!(told(mode, dividend, divisor), Answer::refused(status));
    }
    for mode in [0x01, 0x03, 0x05, 0x07] {
        assert_eq!(told(mode, u32::MAX, u16::MAX).status, 0);
    }
    assert_eq!(Answer::refused(5).trap, 1);
}

/// At least a quarter of what is drawn in a mode traps, and at least a quarter does not.
#[test]
fn drawn_calls_are_worth_asking() {
    let mut draw = Draw::new(1);
    for mode in 0x00..=0x07 {
        let traps = (0..10_000).filter(|_| answer(drawn(&mut draw, mode)) == Answer::told(true));
        let count = traps.count();
        assert!((2_500..7_500).contains(&count), "{mode:02X}: {count}");
    }
}

/// Two powers, three places, two signs each of dividend and divisor, four modes; some trap and some do not.
#[test]
fn borders_have_both_sides() {
    for magnitude in [0x0001, 0x0002, 0x7FFF, 0x8000] {
        let calls: Vec<Call> = at_borders(magnitude).collect();
        assert_eq!(calls.len(), 2 * 3 * 2 * 2 * 4);
        for mode in [0x01, 0x03, 0x05, 0x07] {
            let of_mode: Vec<bool> = calls
                .iter()
                .filter(|call| call.mode == mode)
                .map(|&call| answer(call).trap == 1)
                .collect();
            let has_both = of_mode.contains(&true) && of_mode.contains(&false);
            assert!(has_both, "{mode:02X} {magnitude:X}");
        }
    }
    let lowest = at_ends(0x7FFF).filter(|call| call.dividend == 0x8000_0000);
    assert_eq!(lowest.count(), 2 * 4);
}

/// How many calls there were of each combination of the two refusals, in bits.
static MET: [AtomicU64; 4] = [const { AtomicU64::new(0) }; 4];

fn counted(call: Call, loan: &mut Loan) -> u8 {
    let [mode, size] = faults(call).map(usize::from);
    MET[mode | size << 1].fetch_add(1, Ordering::Relaxed);
    ours(call, loan)
}

#[test]
fn modes_and_limits_meet_every_combination_of_refusals() {
    let quick = Form {
        full: false,
        seed: 1,
    };
    let mut sections = plan::sections(quick).into_iter();
    let section = sections.find(|section| section.name == "trap, modes and limits");
    let tally = Tally::new(sides::ours).with_trap(counted);
    let tally = section.unwrap().run(1, &tally);
    let met = MET.each_ref().map(|count| count.load(Ordering::Relaxed));
    assert_eq!(met.iter().sum::<u64>(), tally.compared);
    assert!(met.iter().all(|&count| count > 1_000), "{met:?}");
}

/// No pair of operands comes twice.
#[test]
fn limits_are_not_repeated() {
    let mut operands: Vec<_> = about_limits(0)
        .map(|call| (call.dividend, call.divisor))
        .collect();
    let all = operands.len();
    operands.sort_unstable();
    operands.dedup();
    assert_eq!(operands.len(), all);
}

#[test]
fn what_was_not_written_shows() {
    let mut loan = Loan::over(UNWRITTEN);
    assert!(*loan.trap() > 1);
    assert_eq!(loan.whole.len(), 2 * Loan::PLACE + 1);
    let (before, after) = loan.whole.split_at(Loan::PLACE);
    let mut guards = before.iter().chain(&after[1..]);
    assert!(guards.all(|&byte| byte > 1 && byte != UNWRITTEN));
}
