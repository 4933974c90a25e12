//! A comparison is worth what it can refuse: wrong answers put in place of the port's are reported.

use comparison::answers;
use comparison::asked::Asked;
use comparison::form::Form;
use comparison::lent::Lent;
use comparison::lines::held::{self, Case};
use comparison::lines::model::Model;
use comparison::packed::call::{self, Call};
use comparison::packed::held::hold;
use comparison::packed::loan::{self, Loan};
use comparison::plan;
use comparison::refused_flags::{Divide, Ruled};
use comparison::registers;
use comparison::roads;
use comparison::sides::{fields_apart, ours, refused, theirs, Numbers, Side};
use comparison::tally::{Tally, MOST_SHOWN};
use comparison::trap;
use comparison::whole;
use hatchyarn::raw::{self, Ran};
use oracle::draw::Draw;
use oracle::edges;
use oracle::request::Operation;
use std::convert::Infallible;
use std::ops::BitXorAssign;

mod wrong;

const QUICK: Form = Form {
    full: false,
    seed: 1,
};

/// One request of the section of edges: FF + 01.
const ONE: Asked = Asked {
    op: 0x00,
    mode: 0x00,
    flags: 0x0000,
    x: 0xFF,
    y: 0x01,
};

/// The port, but for one request.
fn but_for_one(asked: Asked, wrong: impl Fn(&mut Numbers)) -> Numbers {
    let mut given = ours(asked);
    if asked == ONE {
        wrong(&mut given);
    }
    given
}

/// Runs the section of this name with the sides of a tally in place of the port.
fn run(name: &str, tally: Tally) -> Tally {
    let mut sections = plan::sections(QUICK).into_iter();
    let section = sections.find(|section| section.name == name);
    section.expect(name).run(1, &tally)
}

fn at_edges(side: Side) -> Tally {
    run("both widths, every combination of edges", Tally::new(side))
}

/// SAR of a word by 255 with a wrong C, for one upper half of X.
#[test]
fn a_wrong_shift_of_a_word_is_found() {
    let wrong: Side = |asked| {
        let mut given = ours(asked);
        let one = (asked.op, asked.x >> 8, asked.y, asked.flags) == (0x07, 0x80, 255, 0);
        given.flags ^= u16::from(one);
        given
    };
    let found = run("16 bits, shifts and rotates", Tally::new(wrong));
    assert_eq!(found.differing, 4, "{:?}", found.shown);
}

/// FFFF x FFFF with REP, the last pair that is asked.
#[test]
fn a_wrong_product_is_found_among_all() {
    let wrong: Side = |asked| {
        let mut given = ours(asked);
        given.s ^= u16::from((asked.mode, asked.x, asked.y) == (0x07, 0xFFFF, 0xFFFF));
        given
    };
    let last = whole::blocks() - 1;
    let found = whole::block(last).run_part(0xFFF, &Tally::new(wrong));
    assert_eq!((found.compared, found.differing), (0x1_0000, 1));
    assert_eq!(
        whole::block(last)
            .run_part(0xFFE, &Tally::new(wrong))
            .differing,
        0
    );
}

#[test]
fn one_wrong_answer_is_found_and_named() {
    let wrong: [(&str, Side); 5] = [
        ("status", |asked| {
            but_for_one(asked, |given| given.status = 6)
        }),
        ("flags", |asked| {
            but_for_one(asked, |given| given.flags ^= 0x10)
        }),
        ("steps", |asked| {
            but_for_one(asked, |given| given.steps += 1)
        }),
        ("R", |asked| but_for_one(asked, |given| given.r ^= 1)),
        ("S", |asked| but_for_one(asked, |given| given.s ^= 0x8000)),
    ];
    for (field, side) in wrong {
        let tally = at_edges(side);
        assert_eq!(tally.differing, 1, "{field}");
        let [shown] = &tally.shown[..] else {
            panic!("{:?}", tally.shown)
        };
        assert!(shown.starts_with("00000000000000FF0001 "), "{shown}");
        assert!(shown.ends_with(&format!("differ in {field}")), "{shown}");
    }
    assert_eq!(at_edges(ours).differing, 0);
}

#[test]
fn all_are_counted_and_some_are_shown() {
    let side: Side = |asked| Numbers {
        flags: ours(asked).flags ^ 1,
        ..ours(asked)
    };
    let tally = at_edges(side);
    assert_eq!(tally.differing, tally.compared);
    assert_eq!(tally.shown.len(), MOST_SHOWN);
}

/// Mode, X and Y of a divide for each refusal, in the order of their statuses.
const REFUSED: [(u8, u32, u16); 3] = [
    (0x00, 0x0000, 0x00),
    (0x02, 0x0100, 0x01),
    (0x02, 0x0080, 0x01),
];

fn divide((mode, x, y): (u8, u32, u16)) -> Asked {
    Asked {
        op: 0x11,
        mode,
        flags: 0,
        x,
        y,
    }
}

#[test]
fn a_refused_divide_with_wrong_steps_is_found() {
    for refused in REFUSED.map(divide) {
        let mut tally = Tally::new(ours);
        tally.hold(refused);
        assert_eq!(tally.differing, 0);
        let mut tally = Tally::new(|asked| Numbers {
            steps: ours(asked).steps + 1,
            ..ours(asked)
        });
        tally.hold(refused);
        assert_eq!(tally.differing, 1);
        assert!(
            tally.shown[0].ends_with("differ in steps"),
            "{:?}",
            tally.shown
        );
    }
}

/// How many edges differ from MartyPC's answer in this field alone, at 8 and at 16 bits.
fn apart(side: Side, field: &str) -> [u64; 2] {
    let mut apart = [0; 2];
    for operation in Operation::all() {
        let mut take = |request| {
            let asked = Asked::from(request);
            let is_word = asked.mode & 1 != 0;
            let is_apart = fields_apart(&side(asked), &theirs(asked)) == field;
            apart[usize::from(is_word)] += u64::from(is_apart);
            Ok::<(), Infallible>(())
        };
        let Ok(()) = edges::each(operation, &mut take);
    }
    apart
}

/// Each at both widths.
#[test]
fn a_refusal_for_the_wrong_reason_is_found() {
    for (name, side) in wrong::statuses::RULES {
        let [bytes, words] = apart(side, "status");
        assert!(bytes > 0 && words > 0, "{name}: {bytes}, {words}");
        assert_eq!(at_edges(side).differing, bytes + words, "{name}");
    }
}

/// All that differs at the edges differs in the flags, at the width that the rule can show at.
#[test]
fn wrong_flags_of_a_refusal_are_found_at_edges() {
    for (name, side, [bytes, words]) in wrong::flags::RULES {
        assert_eq!(apart(side, "flags"), [bytes, words], "{name}");
        assert_eq!(at_edges(side).differing, bytes + words, "{name}");
    }
}

/// The sections of refused divides, at 8 and at 16 bits.
const BY_RULE: [&str; 2] = [
    "8 bits, refused divides by the rule",
    "16 bits, refused divides by the rule",
];

/// Each at the widths at which edges show it too.
#[test]
fn wrong_flags_of_a_refusal_are_found_by_the_rule() {
    for (name, side, counts) in wrong::flags::RULES {
        for (section, count) in BY_RULE.into_iter().zip(counts) {
            let tally = run(section, Tally::new(side));
            assert_eq!(tally.differing > 0, count > 0, "{name}, {section}");
            let is_held = |shown: &String| {
                shown.contains(" the rule ") && shown.ends_with(" differ in flags")
            };
            assert!(tally.shown.iter().all(is_held), "{:?}", tally.shown);
        }
    }
    for section in BY_RULE {
        assert_eq!(run(section, Tally::new(ours)).differing, 0, "{section}");
    }
}

/// A wrong rule is found by both, so neither side passes unheld.
#[test]
fn both_sides_are_held_to_the_rule() {
    let asked = divide((0x02, 0x00FF, 0x01));
    let ruled = Divide::from(asked).ruled().expect("it is refused");
    let wrong = Ruled {
        compare: Divide::from(asked).first_compare(),
        ..ruled
    };
    for (ruled, differing) in [(ruled, 0), (wrong, 2)] {
        let mut tally = Tally::new(ours);
        tally.hold_to_rule(asked, ruled);
        assert_eq!(tally.differing, differing);
    }
}

/// A full comparison has to meet every refusal.
#[test]
fn what_is_never_met_is_named() {
    let mut tally = Tally::new(ours);
    let all = tally.unmet();
    let told = [
        "status 6, zero divisor",
        "status 8, too wide",
        "status 9, sign range",
    ];
    assert_eq!(all.len(), told.len());
    for (unmet, told) in all.iter().zip(told) {
        assert!(unmet.contains(told), "{unmet} does not say {told}");
    }
    for (met, refused) in REFUSED.map(divide).into_iter().enumerate() {
        tally.hold(refused);
        assert_eq!(tally.unmet(), all[met + 1..]);
    }
}

const TEXT: &[u8] = b"11000000000000070002\n\n110200000000ff800001";

fn run_with(wrong: impl FnOnce(&mut Lent, &mut Ran)) -> u64 {
    let mut tally = Tally::new(ours);
    let case = Case {
        text: TEXT,
        model: &Model::of(TEXT, true),
        room: 50,
        at_end: true,
    };
    held::run(&mut tally, case, |case, lent| {
        let mut ran = raw::run(case.text, lent.bytes(), case.at_end);
        wrong(lent, &mut ran);
        ran
    });
    tally.differing
}

#[test]
fn a_wrong_run_is_found() {
    assert_eq!(run_with(|_, _| {}), 0);
    assert_eq!(run_with(|_, ran| ran.lines += 1), 1);
    assert_eq!(run_with(|_, ran| ran.used -= 1), 1);
    assert_eq!(run_with(|lent, _| lent.bytes()[0] ^= 1), 1, "an answer");
    assert_eq!(
        run_with(|lent, _| lent.bytes()[38] ^= 1),
        1,
        "after the last"
    );
    for guard in [
        |lent: &Lent| lent.room.end,
        |lent: &Lent| lent.room.start - 1,
    ] {
        let flip = |lent: &mut Lent, _: &mut Ran| {
            let place = guard(lent);
            lent.whole[place] ^= 1;
        };
        assert_eq!(run_with(flip), 1, "a guard byte");
    }
}

fn line_with(room: usize, wrong: impl FnOnce(&mut Lent, &mut u8)) -> u64 {
    let mut tally = Tally::new(ours);
    held::line(&mut tally, &TEXT[..20], room, |line, lent| {
        let mut status = raw::line(line, lent.bytes());
        wrong(lent, &mut status);
        status
    });
    tally.differing
}

#[test]
fn a_wrong_line_is_found() {
    for room in [0, 18, 19, 20] {
        assert_eq!(line_with(room, |_, _| {}), 0);
        assert_eq!(line_with(room, |_, status| *status ^= 1), 1);
        let guard = |lent: &mut Lent, _: &mut u8| {
            let place = lent.room.end;
            lent.whole[place] ^= 1;
        };
        assert_eq!(line_with(room, guard), 1, "a guard byte");
    }
    assert_eq!(
        line_with(18, |lent, _| lent.bytes()[0] ^= 1),
        1,
        "room of 18"
    );
    assert_eq!(
        line_with(20, |lent, _| lent.bytes()[19] ^= 1),
        1,
        "after it"
    );
}

fn with_packed(side: loan::Side) -> Tally {
    Tally::new(ours).with_packed(side)
}

#[test]
fn wrong_packed_digits_are_found() {
    for (name, side, sections) in wrong::packed::RULES {
        for section in sections {
            let tally = run(section, with_packed(side));
            assert!(tally.differing > 0, "{name}, {section}");
        }
    }
    for section in wrong::packed::SECTIONS {
        assert_eq!(run(section, Tally::new(ours)).differing, 0, "{section}");
    }
}

/// The port, but that it writes the byte behind one of those that it is lent.
fn behind(call: Call, loan: &mut Loan, which: fn(&mut Loan) -> &mut Lent) -> u8 {
    let status = loan::ours(call, loan);
    let lent = which(loan);
    lent.whole[lent.room.end] ^= 1;
    status
}

/// Each part of what comes of a call, and a port that has it wrong.
const WRONG_PARTS: [(&str, loan::Side); 5] = [
    ("status", |call, loan| loan::ours(call, loan) ^ 1),
    ("x", |call, loan| behind(call, loan, |loan| &mut loan.x)),
    ("y", |call, loan| behind(call, loan, |loan| &mut loan.y)),
    ("result", |call, loan| {
        behind(call, loan, |loan| &mut loan.out)
    }),
    ("carry", |call, loan| {
        behind(call, loan, |loan| &mut loan.carry)
    }),
];

/// A call that is refused, and one that is not.
#[test]
fn a_wrong_part_of_a_packed_call_is_found_and_named() {
    for room in [1, 2] {
        let call = Call::new(call::Operation::Add, &[0x99, 0x09], &[0x01, 0x00], false);
        let call = call.in_room(room);
        for (part, side) in WRONG_PARTS {
            let mut tally = with_packed(side);
            hold(&mut tally, call);
            let [shown] = &tally.shown[..] else {
                panic!("{:?}", tally.shown)
            };
            assert!(shown.ends_with(&format!(": {part} differ")), "{shown}");
        }
        let mut tally = Tally::new(ours);
        hold(&mut tally, call);
        assert_eq!((tally.compared, tally.differing), (1, 0));
    }
}

fn with_answers(side: answers::loan::Side) -> Tally {
    Tally::new(ours).with_answers(side)
}

#[test]
fn wrong_readings_of_answer_lines_are_found() {
    for (name, side, sections) in wrong::answers::RULES {
        for section in sections {
            let tally = run(section, with_answers(side));
            assert!(tally.differing > 0, "{name}, {section}");
        }
    }
    for section in wrong::answers::SECTIONS {
        assert_eq!(run(section, Tally::new(ours)).differing, 0, "{section}");
    }
}

/// The port, but that something beside what it is lent is changed.
fn but(call: answers::call::Call, loan: &mut answers::loan::Loan, wrong: Beside) -> u8 {
    let status = answers::loan::ours(call, loan);
    wrong(loan);
    status
}

type Beside = fn(&mut answers::loan::Loan);

fn flip_before<T: BitXorAssign + From<u8>>(lent: &mut Lent<T>) {
    lent.whole[lent.room.start - 1] ^= T::from(1);
}

fn flip_behind<T: BitXorAssign + From<u8>>(lent: &mut Lent<T>) {
    lent.whole[lent.room.end] ^= T::from(1);
}

/// Each part of what comes of a call, and a port that has it wrong.
const WRONG_PARTS_OF_ANSWERS: [(&str, answers::loan::Side); 9] = [
    ("status", |call, loan| answers::loan::ours(call, loan) ^ 1),
    ("text", |call, loan| {
        but(call, loan, |loan| flip_before(&mut loan.text))
    }),
    ("text", |call, loan| {
        but(call, loan, |loan| flip_behind(&mut loan.text))
    }),
    ("record", |call, loan| {
        but(call, loan, |loan| flip_before(&mut loan.record))
    }),
    ("record", |call, loan| {
        but(call, loan, |loan| flip_behind(&mut loan.record))
    }),
    ("place", |call, loan| {
        but(call, loan, |loan| flip_before(&mut loan.place))
    }),
    ("place", |call, loan| {
        but(call, loan, |loan| flip_behind(&mut loan.place))
    }),
    ("start", |call, loan| {
        but(call, loan, |loan| flip_before(&mut loan.start))
    }),
    ("start", |call, loan| {
        but(call, loan, |loan| flip_behind(&mut loan.start))
    }),
];

/// Calls that read a record, are refused, and find the end.
#[test]
fn a_wrong_part_of_an_answer_read_back_is_found_and_named() {
    use answers::call::Call::{Next, Read};
    let line = b"000001005100030001";
    for call in [
        Read(line),
        Read(&line[1..]),
        Next(line, 0),
        Next(line, 1),
        Next(line, 18),
    ] {
        for (part, side) in WRONG_PARTS_OF_ANSWERS {
            let mut tally = with_answers(side);
            answers::held::hold(&mut tally, call);
            let [shown] = &tally.shown[..] else {
                panic!("{:?}", tally.shown)
            };
            assert!(shown.ends_with(&format!(": {part} differ")), "{shown}");
        }
        let mut tally = Tally::new(ours);
        answers::held::hold(&mut tally, call);
        assert_eq!((tally.compared, tally.differing), (1, 0));
    }
}

fn with_trap(side: trap::loan::Side) -> Tally {
    Tally::new(ours).with_trap(side)
}

#[test]
fn wrong_tellings_of_what_would_trap_are_found() {
    for (name, side, sections) in wrong::trap::RULES {
        for section in sections {
            let tally = run(section, with_trap(side));
            assert!(tally.differing > 0, "{name}, {section}");
        }
    }
    for section in wrong::trap::SECTIONS {
        assert_eq!(run(section, Tally::new(ours)).differing, 0, "{section}");
    }
}

/// An unsigned divide that is refused for its sign: the reference agrees with what is told, and the port does not
/// agree with itself.
#[test]
fn a_full_divide_that_says_otherwise_is_found() {
    let (name, side) = wrong::statuses::RULES[5];
    assert_eq!(name, "sign range of unsigned");
    for section in wrong::trap::ADMITTED {
        let tally = run(section, Tally::new(side));
        assert!(tally.differing > 0, "{section}");
        let is_told = |shown: &String| shown.ends_with(": the full divide differ");
        assert!(tally.shown.iter().all(is_told), "{:?}", tally.shown);
    }
}

/// The port, but that one byte of the loan is flipped.
fn flipped(call: trap::call::Call, loan: &mut trap::loan::Loan, place: usize) -> u8 {
    let status = trap::loan::ours(call, loan);
    loan.whole[place] ^= 1;
    status
}

/// Each part of what comes of a call, and a port that has it wrong.
const WRONG_PARTS_OF_TRAP: [(&str, trap::loan::Side); 4] = [
    ("status, the full divide", |call, loan| {
        trap::loan::ours(call, loan) ^ 1
    }),
    ("trap, the full divide", |call, loan| {
        flipped(call, loan, trap::loan::Loan::PLACE)
    }),
    ("bytes beside trap", |call, loan| {
        flipped(call, loan, trap::loan::Loan::PLACE - 1)
    }),
    ("bytes beside trap", |call, loan| {
        flipped(call, loan, trap::loan::Loan::PLACE + 1)
    }),
];

/// A call that tells of a trap, one that tells of none, and the two refusals; over 0, 1 and 255.
#[test]
fn a_wrong_part_of_what_would_trap_is_found_and_named() {
    use trap::held::hold_over;
    let calls = [
        (0x02, 0xFF80, 1),
        (0x02, 0xFF81, 1),
        (0x08, 0, 1),
        (0, 0, 0x100),
    ];
    for (mode, dividend, divisor) in calls {
        let call = trap::call::Call {
            mode,
            dividend,
            divisor,
        };
        for before in [0x00, 0x01, 0xFF] {
            for (parts, side) in WRONG_PARTS_OF_TRAP {
                let mut tally = with_trap(side);
                hold_over(&mut tally, before, call, 0);
                let [shown] = &tally.shown[..] else {
                    panic!("{:?}", tally.shown)
                };
                assert!(shown.ends_with(&format!(": {parts} differ")), "{shown}");
            }
            let mut tally = Tally::new(ours);
            hold_over(&mut tally, before, call, 0x08D5);
            assert_eq!((tally.compared, tally.differing), (1, 0));
        }
    }
}

fn with_registers(side: registers::loan::Side) -> Tally {
    Tally::new(ours).with_registers(side)
}

/// Has each wrong rule stand in place of the port in the sections that have to find it.
fn find(rules: &[wrong::registers::Rule]) {
    for (name, side, sections) in rules {
        for section in *sections {
            let tally = run(section, with_registers(*side));
            assert!(tally.differing > 0, "{name}, {section}");
        }
    }
}

#[test]
fn what_is_stored_wrongly_in_a_record_is_found() {
    find(&wrong::registers::stored::RULES);
}

#[test]
fn what_is_refused_wrongly_over_a_record_is_found() {
    find(&wrong::registers::refused::RULES);
    for section in wrong::registers::SECTIONS {
        assert_eq!(run(section, Tally::new(ours)).differing, 0, "{section}");
    }
}

/// The reference agrees with what is done over the record, and the port by value does not.
#[test]
fn an_answer_by_value_that_says_otherwise_is_found() {
    let side: Side = |asked| Numbers {
        flags: ours(asked).flags ^ 1,
        ..ours(asked)
    };
    for section in wrong::registers::ADMITTED {
        let tally = run(section, Tally::new(side));
        assert_eq!(tally.differing, tally.compared, "{section}");
        let is_told = |shown: &String| shown.ends_with(": the answer by value differ");
        assert!(tally.shown.iter().all(is_told), "{:?}", tally.shown);
    }
}

/// The port, but that something else of the loan is changed.
fn beside(
    call: registers::call::Call,
    loan: &mut registers::loan::Loan,
    wrong: fn(&mut registers::loan::Loan),
) -> u8 {
    let status = registers::loan::ours(call, loan);
    wrong(loan);
    status
}

/// Each part of what comes of a call, and a port that has it wrong.
const WRONG_PARTS_OF_REGISTERS: [(&str, registers::loan::Side); 6] = [
    ("status", |call, loan| registers::loan::ours(call, loan) ^ 1),
    ("AX", |call, loan| {
        beside(call, loan, |loan| loan.ax.lent ^= 0x8000)
    }),
    ("DX", |call, loan| {
        beside(call, loan, |loan| loan.dx.lent ^= 1)
    }),
    ("flags", |call, loan| {
        beside(call, loan, |loan| loan.flags.lent ^= 0x0800)
    }),
    ("total", |call, loan| {
        beside(call, loan, |loan| loan.total.lent ^= 1 << 31)
    }),
    ("steps", |call, loan| {
        beside(call, loan, |loan| loan.steps.lent ^= 1)
    }),
];

/// Writes beside each of the five numbers, on either side.
const WRITTEN_BESIDE: [registers::loan::Side; 10] = [
    |call, loan| beside(call, loan, |loan| loan.ax.before[3] ^= 1),
    |call, loan| beside(call, loan, |loan| loan.ax.after[0] ^= 1),
    |call, loan| beside(call, loan, |loan| loan.dx.before[3] ^= 1),
    |call, loan| beside(call, loan, |loan| loan.dx.after[0] ^= 1),
    |call, loan| beside(call, loan, |loan| loan.flags.before[3] ^= 1),
    |call, loan| beside(call, loan, |loan| loan.flags.after[0] ^= 1),
    |call, loan| beside(call, loan, |loan| loan.total.before[3] ^= 1),
    |call, loan| beside(call, loan, |loan| loan.total.after[0] ^= 1),
    |call, loan| beside(call, loan, |loan| loan.steps.before[3] ^= 1),
    |call, loan| beside(call, loan, |loan| loan.steps.after[0] ^= 1),
];

/// Op, mode, Y, AX and total of a call that is done, a refused divide, and the four after which all is as it was.
const OVER_A_RECORD: [(u8, u8, u16, u16, u32); 6] = [
    (0x11, 0x00, 0x02, 0x0007, 0),
    (0x11, 0x02, 0x01, 0xFF80, 1),
    (0x00, 0x00, 0x02, 0x0007, 2),
    (0x18, 0x01, 0x00, 0x0007, 3),
    (0x10, 0x00, 0x100, 0x0007, 4),
    (0x11, 0x00, 0x02, 0x0007, u32::MAX),
];

/// Has one call over a record answered by a side, and returns the tally.
fn held_over(
    side: registers::loan::Side,
    (op, mode, y, ax, total): (u8, u8, u16, u16, u32),
) -> Tally {
    let record = registers::call::Record {
        ax,
        total,
        ..Default::default()
    };
    let call = registers::call::Call { op, mode, y };
    let mut tally = with_registers(side);
    registers::held::hold(&mut tally, &mut Draw::new(1), call, record);
    tally
}

#[test]
fn a_wrong_part_of_a_call_over_a_record_is_found_and_named() {
    for over in OVER_A_RECORD {
        for (part, side) in WRONG_PARTS_OF_REGISTERS {
            let tally = held_over(side, over);
            let told = format!(": {part}, the answer by value, MartyPC's answer differ");
            let [shown] = &tally.shown[..] else {
                panic!("{:?}", tally.shown)
            };
            assert!(shown.ends_with(&told), "{shown}");
        }
        for side in WRITTEN_BESIDE {
            let tally = held_over(side, over);
            assert!(tally.shown[0].ends_with(": numbers beside differ"));
        }
        let tally = held_over(registers::loan::ours, over);
        assert_eq!((tally.compared, tally.differing), (1, 0));
    }
}

fn with_roads(side: roads::loan::Side) -> Tally {
    Tally::new(ours).with_roads(side)
}

/// Has each wrong rule stand in place of the port in the sections that have to find it.
fn find_roads(rules: &[wrong::roads::Rule]) {
    for (name, side, sections) in rules {
        for section in *sections {
            let tally = run(section, with_roads(*side));
            assert!(tally.differing > 0, "{name}, {section}");
        }
    }
}

#[test]
fn roads_counted_wrongly_are_found() {
    find_roads(&wrong::roads::counted::RULES);
}

#[test]
fn roads_refused_wrongly_are_found() {
    find_roads(&wrong::roads::refused::RULES);
}

#[test]
fn roads_written_wrongly_are_found() {
    find_roads(&wrong::roads::written::RULES);
    for section in wrong::roads::SECTIONS {
        assert_eq!(run(section, Tally::new(ours)).differing, 0, "{section}");
    }
}

/// The port's full divide, which has something of an accepted one wrong while its roads are told rightly.
const WRONG_DIVIDES: [(&str, Side); 3] = [
    (
        "the full divide's status, the full divide's ones",
        |asked| but_accepted_divide(asked, |given| *given = refused(6)),
    ),
    ("the full divide's ones", |asked| {
        but_accepted_divide(asked, |given| given.r ^= 0x02)
    }),
    ("the full divide's steps", |asked| {
        but_accepted_divide(asked, |given| given.steps += 1)
    }),
];

fn but_accepted_divide(asked: Asked, wrong: fn(&mut Numbers)) -> Numbers {
    let mut given = ours(asked);
    if (asked.op, given.status) == (0x11, 0) {
        wrong(&mut given);
    }
    given
}

/// 0100 / C8, and the same with REP; 8 bits, and 16.
#[test]
fn a_full_divide_that_has_other_roads_is_found() {
    for (parts, side) in WRONG_DIVIDES {
        for (mode, dividend, divisor) in [
            (0x00, 0x0100, 0x00C8),
            (0x04, 0x0100, 0x00C8),
            (0x01, 0x0001_0000, 0xC800),
        ] {
            let mut tally = Tally::new(side);
            let call = trap::call::Call {
                mode,
                dividend,
                divisor,
            };
            roads::held::hold(&mut tally, &mut Draw::new(1), call);
            assert_told(&tally, parts);
        }
    }
    for section in wrong::roads::ADMITTED {
        let (_, side) = WRONG_DIVIDES[2];
        let tally = run(section, Tally::new(side));
        assert!(tally.differing > 10_000, "{section}");
    }
}

/// One difference, in these parts.
fn assert_told(tally: &Tally, parts: &str) {
    let [shown] = &tally.shown[..] else {
        panic!("{:?}", tally.shown)
    };
    assert!(shown.ends_with(&format!(": {parts} differ")), "{shown}");
}

/// Steps that count a one by a bit shifted out as they count one by no borrow, so that equal quotients take equal
/// steps whatever their roads are; and steps that tell more of the divisor than the roads do.
const WRONG_STEPS: [Side; 2] = [
    |asked| {
        let roads = roads::reference::answer(trap::call::Call::from(asked));
        with_more_steps(asked, roads.shifted_out)
    },
    |asked| with_more_steps(asked, asked.y & 1),
];

fn with_more_steps(asked: Asked, more: u16) -> Numbers {
    let given = ours(asked);
    Numbers {
        steps: given.steps + more,
        ..given
    }
}

#[test]
fn steps_of_equal_quotients_that_do_not_tell_the_roads_are_found() {
    for side in WRONG_STEPS {
        let tally = run(wrong::roads::QUOTIENTS, Tally::new(side));
        assert!(tally.differing > 10_000);
        let told = ": steps and ones by a bit shifted out differ";
        let is_told = |shown: &String| shown.ends_with(told);
        assert!(tally.shown.iter().all(is_told), "{:?}", tally.shown);
    }
}

/// Each part that a call alone shows among those of its quotient, and a port that has it wrong.
const WRONG_PARTS_OF_QUOTIENTS: [(&str, roads::loan::Side); 3] = [
    ("status", |call, loan| roads::loan::ours(call, loan) ^ 8),
    (
        "ones by a bit shifted out by a small divisor",
        |call, loan| beside_roads(call, loan, |loan| loan.roads.swap(0, 1)),
    ),
    ("numbers beside", |call, loan| {
        beside_roads(call, loan, |loan| loan.after[0] ^= 1)
    }),
];

/// 7FFF / 80, the largest divisor by which no bit is ever shifted out.
#[test]
fn a_wrong_part_of_equal_quotients_is_found_and_named() {
    let call = trap::call::Call {
        mode: 0x00,
        dividend: 0x7FFF,
        divisor: 0x80,
    };
    for (part, side) in WRONG_PARTS_OF_QUOTIENTS {
        let mut tally = with_roads(side);
        roads::law::Law::default().hold(&mut tally, &mut Draw::new(1), call);
        assert_told(&tally, part);
    }
}

/// The port, but that something else of the loan is changed.
fn beside_roads(
    call: trap::call::Call,
    loan: &mut roads::loan::Loan,
    wrong: fn(&mut roads::loan::Loan),
) -> u8 {
    let status = roads::loan::ours(call, loan);
    wrong(loan);
    status
}

/// Each part of what comes of a call, what differs with it where the divide is accepted, and a port that has it
/// wrong.
const WRONG_PARTS_OF_ROADS: [(&str, &str, roads::loan::Side); 5] = [
    ("status, the full divide's status", "", |call, loan| {
        roads::loan::ours(call, loan) ^ 1
    }),
    (
        "ones by a bit shifted out, the full divide's ones",
        "",
        |call, loan| beside_roads(call, loan, |loan| loan.roads[0] ^= 0x8000),
    ),
    (
        "ones by no borrow, the full divide's ones",
        ", the full divide's steps",
        |call, loan| beside_roads(call, loan, |loan| loan.roads[1] ^= 1),
    ),
    ("numbers beside", "", |call, loan| {
        beside_roads(call, loan, |loan| loan.before[7] ^= 1)
    }),
    ("numbers beside", "", |call, loan| {
        beside_roads(call, loan, |loan| loan.after[0] ^= 0x8000)
    }),
];

/// Mode, dividend and divisor of a divide that is accepted, and of one for each refusal.
const ROADS_OF: [(u8, u32, u16); 6] = [
    (0x00, 0x0100, 0x00C8),
    (0x08, 0x0100, 0x00C8),
    (0x00, 0x0100, 0x0100),
    (0x00, 0x0100, 0x0000),
    (0x00, 0x0100, 0x0001),
    (0x02, 0x0080, 0x0001),
];

#[test]
fn a_wrong_part_of_the_roads_is_found_and_named() {
    for (place, (mode, dividend, divisor)) in ROADS_OF.into_iter().enumerate() {
        let call = trap::call::Call {
            mode,
            dividend,
            divisor,
        };
        for before in [[0, 0], [1, 0], [0xFFFF, 0x8000]] {
            let held = |side| {
                let mut tally = with_roads(side);
                roads::held::hold_over(&mut tally, &mut Draw::new(1), before, call);
                tally
            };
            for (parts, of_accepted, side) in WRONG_PARTS_OF_ROADS {
                let more = if place == 0 { of_accepted } else { "" };
                assert_told(&held(side), &format!("{parts}{more}"));
            }
            let tally = held(roads::loan::ours);
            assert_eq!((tally.compared, tally.differing), (1, 0));
        }
    }
}
