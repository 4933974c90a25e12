//! The plan meets what it is meant to meet, and the model says what the scope says.

use comparison::asked::Asked;
use comparison::divides::Divides;
use comparison::form::Form;
use comparison::lines::model::{status, Model};
use comparison::plan;
use comparison::sides::ours;
use comparison::tally::Tally;
use oracle::request::Operation;
use oracle::Refused;

const QUICK: Form = Form {
    full: false,
    seed: 1,
};

/// Most drawn divides are accepted, and many of them have a quotient at an end of its range; every
/// refusal turns up.
#[test]
fn drawn_divides_are_worth_asking() {
    let is_divide = |operation: &Operation| matches!(operation, Operation::Divide(_));
    let operations: Vec<Operation> = Operation::all().filter(is_divide).collect();
    let (mut tally, mut draw) = (Tally::new(ours), QUICK.draw(0, 0));
    for _ in 0..100_000 {
        tally.hold(Asked::from(draw.request(&operations)));
    }
    let divides = tally.divides;
    assert_eq!(divides.all(), 100_000);
    assert!(divides.accepted > 75_000, "{divides}");
    assert!(divides.at_end > 20_000, "{divides}");
    assert!(divides.all() - divides.accepted > 10_000, "{divides}");
    for (why, count) in divides.refused() {
        let fewest = match why {
            Refused::ZeroDivisor | Refused::TooWide => 5_000,
            Refused::SignRange => 1_000,
        };
        assert!(count > fewest, "{divides}");
    }
}

/// What is held to the rule is refused, and at both widths for each reason more than now and then.
#[test]
fn divides_held_to_the_rule_are_refused_for_every_reason() {
    let sections = plan::sections(QUICK).into_iter();
    let by_rule = sections.filter(|section| section.name.ends_with("by the rule"));
    let divides: Vec<Divides> = by_rule
        .map(|section| section.run(1, &Tally::new(ours)).divides)
        .collect();
    assert_eq!(divides.len(), 2);
    for divides in divides {
        assert!(
            divides.accepted == 0 && divides.all() > 1_000_000,
            "{divides}"
        );
        assert!(
            divides.refused().all(|(_, count)| count > 15_000),
            "{divides}"
        );
    }
}

#[test]
fn the_full_form_has_all_flag_sets_once() {
    let full = Form {
        full: true,
        seed: 1,
    };
    let sets = full.flag_sets(&mut full.draw(0, 0));
    assert_eq!((sets.len(), sets[0], sets[63]), (64, 0x0000, 0x08D5));
    assert!(sets.windows(2).all(|pair| pair[0] < pair[1]));
}

/// Neither threads nor a second run change what is asked.
#[test]
fn threads_change_nothing() {
    let sections = plan::sections(QUICK);
    let edges = &sections[5];
    let (one, two) = (
        edges.run(1, &Tally::new(ours)),
        edges.run(2, &Tally::new(ours)),
    );
    assert_eq!(one.compared, 703_436);
    let seen = |tally: &Tally| (tally.compared, tally.divides, tally.differing);
    assert_eq!(seen(&one), seen(&two));
}

#[test]
fn the_model_answers_the_session_of_the_scope() {
    let text = b"11000000000000070002\n110200000000FF800001\n";
    let model = Model::of(text, false);
    assert_eq!(model.answers, b"000001005100030001\n090014005F00000000\n");
    assert_eq!(model.within(37), (1, 21));
    assert_eq!(model.within(38), (2, 42));
    assert_eq!(model.within(18), (0, 0));
}

#[test]
fn the_model_takes_a_tail_at_the_end_alone() {
    let model = |text: &[u8], at_end| Model::of(text, at_end).ends;
    assert_eq!(model(b"a\n\nb", false), [2, 3]);
    assert_eq!(model(b"a\n\nb", true), [2, 3, 4]);
    assert_eq!(model(b"a\n", true), [2]);
    assert_eq!(model(b"", true), []);
}

#[test]
fn the_model_has_the_order_of_the_table() {
    for (line, expected) in [
        ("", 1),
        ("FFFF000000000007000g", 2),
        ("0DFFFFFFFFFFFFFFFFFF", 3),
        ("0008FFFFFFFFFFFFFFFF", 4),
        ("00000002000000000000", 5),
        ("11000000000000000000", 6),
        ("11020000000080000000", 6),
        ("11000000000001000001", 8),
        ("11020000000001000001", 8),
        ("11020000000000FF0001", 9),
        ("110200000000FF800001", 9),
        ("11000000000000FF0001", 0),
        ("11000000000000070002", 0),
    ] {
        assert_eq!(status(line.as_bytes(), 19), expected, "{line}");
        assert_eq!(status(line.as_bytes(), 18), 7, "{line}");
    }
}
