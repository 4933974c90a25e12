//! The Rust that the port is timed beside answers as the oracle and the references do, or its time would
//! mean nothing.

use comparison::answers;
use comparison::asked::Asked;
use comparison::form::Form;
use comparison::lines::model::Model;
use comparison::packed::careful as packed;
use comparison::packed::{loan, tabled};
use comparison::sides::{ours, theirs};
use comparison::tally::Tally;
use comparison::{careful, filter, plan, registers, roads, trap};
use oracle::draw::Draw;
use oracle::request::Operation;
use oracle::{edges, malformed};
use std::convert::Infallible;
use std::io::Read;

const QUICK: Form = Form {
    full: false,
    seed: 1,
};

fn hold(asked: Asked) {
    let given = careful::ask(asked.op, asked.mode, asked.flags, asked.x, asked.y);
    assert_eq!(given, theirs(asked), "{}", asked.line());
}

#[test]
fn ask_answers_as_the_oracle_does() {
    for operation in Operation::all() {
        let mut take = |request| {
            hold(Asked::from(request));
            Ok::<(), Infallible>(())
        };
        let Ok(()) = edges::each(operation, &mut take);
    }
}

#[test]
fn ask_judges_as_the_oracle_does() {
    let mut draw = Draw::new(1);
    for op_mode in 0..=0xFFFF_u16 {
        let [op, mode] = op_mode.to_be_bytes();
        for narrow in [0xF, 0xFF, 0x1FF, 0x1_FFFF, u32::MAX] {
            hold(Asked {
                op,
                mode,
                flags: draw.bits() as u16 & draw.pick(&[0x08D5, 0xFFFF]),
                x: draw.bits() as u32 & narrow,
                y: draw.bits() as u16 & narrow as u16,
            });
        }
    }
}

/// Hands over a few bytes at a time, so that lines lie across the ends of reads.
struct Slow<'a>(&'a [u8], Draw);

impl Read for Slow<'_> {
    fn read(&mut self, room: &mut [u8]) -> std::io::Result<usize> {
        let length = room.len().min(1 + self.1.below(100) as usize);
        self.0.read(&mut room[..length])
    }
}

fn filtered(input: impl Read) -> Vec<u8> {
    let mut answers = Vec::new();
    filter::run(input, &mut answers).unwrap();
    answers
}

#[test]
fn filter_answers_as_the_model() {
    let mut text = Vec::new();
    let operations: Vec<Operation> = Operation::all().collect();
    let mut draw = QUICK.draw(0, 0);
    for line in malformed::lines().into_iter().cycle().take(5_000) {
        text.extend(draw.request(&operations).to_line());
        text.extend(line);
        text.push(b'\n');
    }
    text.extend(vec![b'0'; 200_000]);
    for tail in [&b""[..], b"\n", b"\n1100", b"\n11000000000000070002"] {
        let text = [&text, tail].concat();
        let answers = Model::of(&text, true).answers;
        assert!(filtered(&text[..]) == answers);
        assert!(filtered(Slow(&text, Draw::new(1))) == answers);
    }
    assert_eq!(filtered(&b""[..]), b"");
}

/// Stands in place of the port in all sections of packed digits.
fn hold_packed(side: loan::Side) {
    let sections = plan::sections(QUICK).into_iter();
    let tally = Tally::new(ours).with_packed(side);
    let of_packed = sections.filter(|section| section.name.starts_with("packed, "));
    let held: Vec<Tally> = of_packed.map(|section| section.run(1, &tally)).collect();
    assert_eq!(held.len(), 6);
    for held in held {
        assert!(held.compared > 10_000);
        assert_eq!(held.differing, 0, "{:?}", held.shown);
    }
}

#[test]
fn packed_digits_in_one_pass_are_as_in_the_reference() {
    hold_packed(|call, loan| loan.call(call, [packed::add, packed::subtract]));
}

#[test]
fn packed_digits_by_a_table_are_as_in_the_reference() {
    hold_packed(|call, loan| loan.call(call, [tabled::add, tabled::subtract]));
}

/// Stands in place of the port in all sections of answer lines.
fn hold_answers(side: answers::loan::Side) {
    let sections = plan::sections(QUICK).into_iter();
    let tally = Tally::new(ours).with_answers(side);
    let of_answers = sections.filter(|section| section.name.starts_with("answers, "));
    let held: Vec<Tally> = of_answers.map(|section| section.run(1, &tally)).collect();
    assert_eq!(held.len(), 8);
    for held in held {
        assert!(held.compared > 10_000);
        assert_eq!(held.differing, 0, "{:?}", held.shown);
    }
}

#[test]
fn answer_lines_digit_by_digit_are_as_in_the_reference() {
    use answers::careful::{next, read};
    hold_answers(|call, loan| loan.call(call, (read, next)));
}

#[test]
fn answer_lines_by_a_table_are_as_in_the_reference() {
    use answers::tabled::{next, read};
    hold_answers(|call, loan| loan.call(call, (read, next)));
}

/// Stands in place of the port in all sections of what would trap.
#[test]
fn what_would_trap_by_the_hosts_division_is_as_in_the_reference() {
    let sections = plan::sections(QUICK).into_iter();
    let tally = Tally::new(ours);
    let tally = tally.with_trap(|call, loan| loan.call(call, trap::careful::would_trap));
    let of_trap = sections.filter(|section| section.name.starts_with("trap, "));
    let held: Vec<Tally> = of_trap.map(|section| section.run(1, &tally)).collect();
    assert_eq!(held.len(), 6);
    for held in held {
        assert!(held.compared > 10_000);
        assert_eq!(held.differing, 0, "{:?}", held.shown);
    }
}

/// Stands in place of the port in all sections over a register record.
#[test]
fn answers_by_value_put_back_are_as_in_the_reference() {
    let sections = plan::sections(QUICK).into_iter();
    let tally = Tally::new(ours);
    let tally = tally.with_registers(|call, loan| {
        let (mut record, mut steps) = (loan.record(), loan.steps.lent);
        let status = registers::careful::operate(call, &mut record, &mut steps);
        loan.put(record, steps);
        status
    });
    let of_registers = sections.filter(|section| section.name.starts_with("registers, "));
    let held: Vec<Tally> = of_registers.map(|section| section.run(1, &tally)).collect();
    assert_eq!(held.len(), 12);
    for held in held {
        assert!(held.compared > 100_000);
        assert_eq!(held.differing, 0, "{:?}", held.shown);
    }
}

/// Stands in place of the port in all sections of the roads.
#[test]
fn roads_by_a_plain_walk_are_as_in_the_reference() {
    let sections = plan::sections(QUICK).into_iter();
    let tally = Tally::new(ours);
    let tally = tally.with_roads(|call, loan| loan.call(call, roads::careful::roads));
    let of_roads = sections.filter(|section| section.name.starts_with("roads, "));
    let held: Vec<Tally> = of_roads.map(|section| section.run(1, &tally)).collect();
    assert_eq!(held.len(), 8);
    for held in held {
        assert!(held.compared > 50_000);
        assert_eq!(held.differing, 0, "{:?}", held.shown);
    }
}
