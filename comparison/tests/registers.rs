//! The reference over a register record says what the rules say, and the sections meet what they are for.

use comparison::form::Form;
use comparison::plan;
use comparison::registers::call::{Call, Outcome, Record};
use comparison::registers::held::unwritten;
use comparison::registers::loan::{ours, Loan, Side};
use comparison::registers::operands::{at_turns, drawn, operations};
use comparison::registers::reference::{faults, outcome};
use comparison::registers::refusals::about_limit;
use comparison::registers::sequence::Sequence;
use comparison::sides;
use comparison::tally::Tally;
use oracle::draw::Draw;
use oracle::request::ALL_FLAGS;
use std::sync::atomic::{AtomicU64, Ordering};

fn call(op: u8, mode: u8, y: u16) -> Call {
    Call { op, mode, y }
}

fn record(ax: u16, dx: u16, flags: u16, total: u32) -> Record {
    Record {
        ax,
        dx,
        flags,
        total,
    }
}

fn told(status: u8, record: Record, steps: u16) -> Outcome {
    Outcome {
        status,
        record,
        steps,
    }
}

/// What comes of a call over AX and flags, by hand: AX, DX, flags and steps. DX is 5A5A and the total 1000 before.
type Row = (Call, [u16; 2], [u16; 4]);

fn hold_by_hand(rows: &[Row]) {
    for &(call, [ax, flags], [ax_after, dx_after, flags_after, steps]) in rows {
        let total = 1000 + u32::from(steps);
        let after = record(ax_after, dx_after, flags_after, total);
        let given = outcome(call, record(ax, 0x5A5A, flags, 1000));
        assert_eq!(given, told(0, after, steps), "{call}, AX {ax:04X}");
    }
}

#[test]
fn multiplies_by_hand() {
    let byte = |mode, y| call(0x10, mode, y);
    hold_by_hand(&[
        (
            byte(0x00, 0x10),
            [0xFF20, 0x0000],
            [0x0200, 0x5A5A, 0x0801, 67],
        ),
        (
            byte(0x02, 0xFF),
            [0x7F01, 0x0000],
            [0xFFFF, 0x5A5A, 0x0054, 89],
        ),
        (
            byte(0x01, 0x0100),
            [0x1234, 0x0004],
            [0x3400, 0x0012, 0x0805, 119],
        ),
    ]);
}

/// 7 by 2, -7 by 2 without REP and with it, and 5A5A0000 by 8000.
#[test]
fn divides_by_hand() {
    let by = |mode, y| call(0x11, mode, y);
    hold_by_hand(&[
        (
            by(0x00, 0x02),
            [0x0007, 0x0000],
            [0x0103, 0x5A5A, 0x0001, 81],
        ),
        (
            by(0x02, 0x02),
            [0xFFF9, 0x08D5],
            [0xFFFD, 0x5A5A, 0x0000, 106],
        ),
        (
            by(0x06, 0x02),
            [0xFFF9, 0x08D5],
            [0xFF03, 0x5A5A, 0x0000, 106],
        ),
        (
            by(0x01, 0x8000),
            [0x0000, 0x0000],
            [0xB4B4, 0x0000, 0x0884, 149],
        ),
    ]);
}

#[test]
fn adjusts_by_hand() {
    let adjust = |op, y| call(op, 0x00, y);
    hold_by_hand(&[
        (
            adjust(0x18, 0x00),
            [0x000A, 0x0000],
            [0x0100, 0x5A5A, 0x0011, 6],
        ),
        (
            adjust(0x19, 0x00),
            [0x0105, 0x0000],
            [0x0105, 0x5A5A, 0x0004, 7],
        ),
        (
            adjust(0x1A, 0x0A),
            [0x0203, 0x0001],
            [0x0017, 0x5A5A, 0x0005, 58],
        ),
        (
            adjust(0x1B, 0x00),
            [0xAB9A, 0x0000],
            [0xAB00, 0x5A5A, 0x0055, 0],
        ),
        (
            adjust(0x1C, 0x00),
            [0xAB00, 0x0001],
            [0xABA0, 0x5A5A, 0x0085, 0],
        ),
    ]);
}

/// AX and DX stay, the flags are stored, and the steps counted.
#[test]
fn refused_divides_by_hand() {
    for (mode, y, [ax, dx], (status, flags, steps)) in [
        (0x00, 0x00, [0x0007, 0x5A5A], (6, 0x0044, 9)),
        (0x03, 0x00, [0x0000, 0x8000], (6, 0x0084, 23)),
        (0x00, 0x01, [0x0100, 0x5A5A], (8, 0x0044, 9)),
        (0x02, 0x7F, [0x8000, 0x5A5A], (8, 0x0810, 23)),
        (0x02, 0x01, [0xFF80, 0x5A5A], (9, 0x0014, 95)),
        (0x03, 0x01, [0x8000, 0xFFFF], (9, 0x0094, 159)),
    ] {
        let given = outcome(call(0x11, mode, y), record(ax, dx, 0x0041, 1000));
        let after = record(ax, dx, flags, 1000 + u32::from(steps));
        assert_eq!(given, told(status, after, steps));
    }
}

/// Each alone, and beside those that come after it: the record stays, and no steps are told.
#[test]
fn refusals_have_their_order() {
    for (op, mode, y, flags, total, status) in [
        (0x00, 0x00, 0x00, 0x0000, 0, 3),
        (0x0C, 0x01, 0x00, 0x0000, 0, 3),
        (0x12, 0x08, 0xFFFF, 0xFFFF, u32::MAX, 3),
        (0x10, 0x08, 0x00, 0x0000, 0, 4),
        (0x1B, 0x01, 0x00, 0x0000, 0, 4),
        (0x11, 0x80, 0xFFFF, 0xFFFF, u32::MAX, 4),
        (0x11, 0x00, 0x100, 0x0000, 0, 5),
        (0x10, 0x02, 0x100, 0x0000, 0, 5),
        (0x1A, 0x00, 0x100, 0x0000, 0, 5),
        (0x18, 0x00, 0x01, 0x0000, 0, 5),
        (0x11, 0x01, 0x00, 0x0002, u32::MAX, 5),
        (0x10, 0x01, 0xFFFF, 0x0000, u32::MAX, 10),
        (0x11, 0x01, 0x00, 0x0000, u32::MAX, 10),
    ] {
        let before = record(0x1234, 0x5678, flags, total);
        let given = outcome(call(op, mode, y), before);
        assert_eq!(given, Outcome::refused(status, before));
    }
}

/// 7 by 2 has 81 steps, 0007 by 00 has 9, and DAA none.
#[test]
fn a_total_is_filled_to_the_last_step() {
    for (op, y, steps, full) in [(0x11, 0x02, 81, 0), (0x11, 0x00, 9, 6), (0x1B, 0x00, 0, 0)] {
        let over = |total| outcome(call(op, 0, y), record(0x0007, 0, 0, total));
        let last = over(u32::MAX - steps);
        assert_eq!((last.status, last.record.total), (full, u32::MAX));
        let past = over((u32::MAX - steps).saturating_add(1));
        assert_eq!(past.status, if steps > 0 { 10 } else { 0 });
    }
}

/// The three that an operation stops at, and the one that carries, for every operation.
#[test]
fn totals_turn_where_they_should() {
    let mut draw = Draw::new(1);
    for operation in operations() {
        let (call, record) = drawn(&mut draw, operation);
        let totals = at_turns(&mut draw, call, record);
        let status = |total| outcome(call, Record { total, ..record }).status;
        let [below, last, past, most, carries] = totals.map(|total| status(total) == 10);
        let has_steps = !matches!(call.op, 0x1B | 0x1C);
        assert!(!below && !last && !carries, "{call}");
        assert_eq!((past, most), (has_steps, has_steps), "{call}");
    }
}

const QUICK: Form = Form {
    full: false,
    seed: 1,
};

/// Runs the section of this name with a side that counts in place of the port, and returns how many it compared.
fn count(name: &str, side: Side) -> u64 {
    let mut sections = plan::sections(QUICK).into_iter();
    let section = sections.find(|section| section.name == name);
    let tally = Tally::new(sides::ours).with_registers(side);
    section.unwrap().run(1, &tally).compared
}

/// How many calls there were of each combination of refusals, in bits.
static MET: [AtomicU64; 32] = [const { AtomicU64::new(0) }; 32];

/// 3, 4, 5, a total that no step could be added to, and a divisor of 0, which comes with no op that is none.
fn counted(call: Call, loan: &mut Loan) -> u8 {
    let record = loan.record();
    let [op, mode, range] = faults(call, record);
    let is_full = record.total > u32::MAX - 6;
    let by_zero = call.op == 0x11 && call.y == 0;
    let faults = [op, mode, range, is_full, by_zero].into_iter().enumerate();
    let met = faults.fold(0, |met, (place, applies)| {
        met | usize::from(applies) << place
    });
    MET[met].fetch_add(1, Ordering::Relaxed);
    ours(call, loan)
}

#[test]
fn faults_meet_every_combination_of_refusals() {
    let compared = count("registers, several faults at once", counted);
    let met = MET.each_ref().map(|count| count.load(Ordering::Relaxed));
    assert_eq!(met.iter().sum::<u64>(), compared);
    for (combination, count) in met.into_iter().enumerate() {
        let can_be = combination & 0b10001 != 0b10001;
        assert_eq!(count > 10, can_be, "{combination:05b}: {count}");
    }
}

/// How many calls of a sequence had each status, from a fresh record and into the end.
static FRESH: [AtomicU64; 11] = [const { AtomicU64::new(0) }; 11];
static END: [AtomicU64; 11] = [const { AtomicU64::new(0) }; 11];

fn by_status(call: Call, loan: &mut Loan, met: &[AtomicU64; 11]) -> u8 {
    let status = ours(call, loan);
    met[usize::from(status)].fetch_add(1, Ordering::Relaxed);
    status
}

/// Most are done, so that a sequence goes on; each status is met.
#[test]
fn sequences_meet_every_status() {
    let sides: [(&str, Side, &[AtomicU64; 11]); 2] = [
        (
            "registers, sequences",
            |call, loan| by_status(call, loan, &FRESH),
            &FRESH,
        ),
        (
            "registers, sequences into the end",
            |call, loan| by_status(call, loan, &END),
            &END,
        ),
    ];
    for (name, side, met) in sides {
        let compared = count(name, side);
        let met = met.each_ref().map(|count| count.load(Ordering::Relaxed));
        let [done, _, _, bad_op, bad_mode, too_large, zero, _, wide, sign, full] = met;
        assert_eq!(met.iter().sum::<u64>(), compared);
        let others = [bad_op, bad_mode, too_large, zero, wide, sign];
        assert!(others.iter().all(|&count| count > 500), "{met:?}");
        match full {
            0 => assert!(done > compared * 6 / 10, "{met:?}"),
            _ => assert!(done > compared / 5 && full > compared / 5, "{met:?}"),
        }
        assert_eq!(full > 0, name.ends_with("end"));
    }
}

/// A total that comes from elsewhere than the steps told is found though the reference is not asked.
#[test]
fn the_sum_of_the_steps_is_held() {
    let untold: Side = |call, loan| {
        let status = ours(call, loan);
        loan.steps.lent = 0;
        status
    };
    let mut tally = Tally::new(sides::ours).with_registers(untold);
    let mut sequence = Sequence::over(record(0x0007, 0, 0, 0));
    sequence.hold(&mut tally, &mut Draw::new(1), call(0x11, 0, 2));
    assert!(tally.shown[0].contains("steps, "), "{:?}", tally.shown);
    assert!(tally.shown[0].ends_with(", the sum of the steps differ"));
    sequence.store(record(0xFFFF, 0xFFFF, ALL_FLAGS, 7));
    assert_eq!(sequence.record, record(0xFFFF, 0xFFFF, ALL_FLAGS, 81));
}

/// No Y comes twice, and those about the limit are there.
#[test]
fn limits_are_not_repeated() {
    for (op, mode, limit) in [
        (0x11, 0x00, 0xFF_u16),
        (0x10, 0x01, 0xFFFF),
        (0x18, 0x00, 0),
    ] {
        let values = about_limit(op, mode);
        assert!(values.windows(2).all(|pair| pair[0] < pair[1]));
        for y in [0, limit, limit.saturating_add(1), 0xFFFF] {
            assert!(values.contains(&y), "{op:02X} {mode:02X}: {y:04X}");
        }
    }
}

/// No operation has so many steps as stand there before.
#[test]
fn what_was_not_written_shows() {
    let mut draw = Draw::new(1);
    for operation in operations() {
        let (call, record) = drawn(&mut draw, operation);
        assert!(outcome(call, record).steps < unwritten(&mut draw));
    }
    let mut loan = Loan::over(Record::default(), 0);
    assert!(!loan.is_written_beside());
    loan.put(record(1, 2, 4, 5), 6);
    assert!(!loan.is_written_beside());
    assert_eq!(loan.outcome(0), told(0, record(1, 2, 4, 5), 6));
}
