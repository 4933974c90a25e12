//! Lines in and out, and the program itself: what a user of either relies on.

use oracle::draw::Draw;
use oracle::request::Operation;
use oracle::session::{record, run, Stop};
use oracle::{answer, borders, edges, malformed, Fault, Request};
use std::io::Write;
use std::process::{Command, Output, Stdio};

const SESSION: &str = "11000000000000070002\n110200000000FF800001\n";

fn text(requests: &str) -> (String, Result<u64, Stop>) {
    let mut answers = Vec::new();
    let result = run(requests.as_bytes(), &mut answers);
    (String::from_utf8(answers).unwrap(), result)
}

/// A refused divide has the flags that the Rust wrote before it refused. Here
/// the last compare is 00 - 01, so A and P are set; S is bit 15 and stays clear;
/// the quotient's magnitude is 80, so C is clear.
#[test]
fn session_of_the_scope() {
    let (answers, result) = text(SESSION);
    assert_eq!(answers, "000001005100030001\n090014005F00000000\n");
    assert_eq!(result.unwrap(), 2);
}

/// The borders hold each divide once with no flag and once with all of them.
#[test]
fn flags_handed_in_do_not_show_in_a_refusal() {
    let mut refused = 0;
    for request in borders::requests() {
        let given = answer(&request);
        let (operation, x, y) = (request.operation(), request.x(), request.y());
        let bare = Request::new(operation, 0, x, y).unwrap();
        if given.refused.is_some() {
            refused += 1;
            assert_eq!(given, answer(&bare), "{request:?}");
        }
    }
    assert_eq!(refused, 352);
}

#[test]
fn last_feed_may_lack_and_both_cases_are_read() {
    let (answers, result) = text("18000000000000fa0000\n18000000000000FA0000");
    let (first, second) = answers.split_at(19);
    assert_eq!(first, second);
    assert_eq!(result.unwrap(), 2);
    assert_eq!(text("").1.unwrap(), 0);
}

#[test]
fn faults_in_their_order() {
    for (line, fault) in [
        ("", Fault::Length),
        ("1100000000000007000", Fault::Length),
        ("110000000000000700020", Fault::Length),
        ("11000000000000070002\r", Fault::Length),
        ("FFFF000000000007000g", Fault::Digit),
        ("+1000000000000070002", Fault::Digit),
        ("0DFFFFFFFFFFFFFFFFFF", Fault::Op),
        ("12000000000000000000", Fault::Op),
        ("17000000000000000000", Fault::Op),
        ("1D000000000000000000", Fault::Op),
        ("0008FFFFFFFFFFFFFFFF", Fault::Mode),
        ("00020000000000000000", Fault::Mode),
        ("00040000000000000000", Fault::Mode),
        ("18010000000000000000", Fault::Mode),
        ("00000002000000000000", Fault::Range),
        ("00000000000001000000", Fault::Range),
        ("00000000000000000100", Fault::Range),
        ("00010000000100000000", Fault::Range),
        ("05010000000000000100", Fault::Range),
        ("04000000000000000001", Fault::Range),
        ("11000000000100000001", Fault::Range),
        ("18000000000100000000", Fault::Range),
        ("18000000000000000001", Fault::Range),
        ("1A000000000000000100", Fault::Range),
    ] {
        assert_eq!(Request::parse(line.as_bytes()), Err(fault), "{line}");
    }
}

#[test]
fn largest_operands_are_admitted() {
    for operation in Operation::all() {
        let (x, y) = (operation.x_limit(), operation.y_limit());
        let request = Request::new(operation, 0x08D5, x, y).unwrap();
        let line = request.to_line();
        assert_eq!(Request::parse(&line[..20]), Ok(request));
    }
    assert_eq!(Operation::all().count(), 47);
}

#[test]
fn a_fault_names_its_line_and_keeps_the_answers_before_it() {
    let (answers, result) = text("11000000000000070002\n\n");
    assert_eq!(answers, "000001005100030001\n");
    assert!(matches!(result, Err(Stop::Line(2, Fault::Length))));
    let long = "0".repeat(1000);
    assert!(matches!(text(&long).1, Err(Stop::Line(1, Fault::Length))));
}

/// Steps have the scope's bounds, and most divides drawn are accepted.
#[test]
fn drawn_requests_are_admitted_and_answered() {
    let operations: Vec<Operation> = Operation::all().collect();
    let (mut draw, mut again) = (Draw::new(7), Draw::new(7));
    let (mut divides, mut refused) = (0, 0);
    for _ in 0..100_000 {
        let request = draw.request(&operations);
        assert_eq!(request, again.request(&operations));
        assert_eq!(Request::parse(&request.to_line()[..20]), Ok(request));
        let given = answer(&request);
        assert!(given.flags & !0x08D5 == 0);
        if let Operation::Divide(_) = request.operation() {
            divides += 1;
            refused += u32::from(given.refused.is_some());
            assert!(given.steps <= 183);
        }
    }
    assert!(
        refused > 0 && refused * 3 < divides,
        "{refused} of {divides}"
    );
}

#[test]
fn every_edge_is_admitted_and_answered() {
    for operation in Operation::all() {
        let mut lines = 0;
        let mut take = |request: Request| {
            lines += 1;
            assert_eq!(request.operation(), operation);
            answer(&request);
            Ok::<(), ()>(())
        };
        edges::each(operation, &mut take).unwrap();
        assert!(lines > 0);
    }
}

/// Every kind stands in the list, and no line of it is admitted.
#[test]
fn malformed_lines_have_every_status() {
    let mut seen = [0; 6];
    for line in malformed::lines() {
        let fault = Request::parse(&line).expect_err("admitted");
        assert!(!line.contains(&b'\n'));
        seen[usize::from(fault.status())] += 1;
    }
    assert!(
        seen[0] == 0 && seen[1..].iter().all(|&lines| lines > 30),
        "{seen:?}"
    );
}

#[test]
fn records_hold_the_answer_and_the_line() {
    let mut records = Vec::new();
    let lines = format!("{SESSION}\n0D");
    assert_eq!(record(lines.as_bytes(), &mut records).unwrap(), 4);
    let expected = "000001005100030001 11000000000000070002\n\
                    090014005F00000000 110200000000FF800001\n\
                    010000000000000000 \n\
                    010000000000000000 0D\n";
    assert_eq!(String::from_utf8(records).unwrap(), expected);
}

/// Refused divides among them: the borders and some draws.
#[test]
fn records_and_answers_agree_on_admitted_lines() {
    let operations: Vec<Operation> = Operation::all().collect();
    let mut draw = Draw::new(1);
    let drawn = (0..5_000).map(|_| draw.request(&operations));
    let requests: Vec<u8> = borders::requests()
        .into_iter()
        .chain(drawn)
        .flat_map(|request| request.to_line())
        .collect();
    let requests = String::from_utf8(requests).unwrap();
    let mut records = Vec::new();
    let recorded = record(requests.as_bytes(), &mut records).unwrap();
    let (answers, answered) = text(&requests);
    assert_eq!(recorded, answered.unwrap());
    let expected = answers.lines().zip(requests.lines());
    let expected: String = expected
        .map(|(answer, line)| format!("{answer} {line}\n"))
        .collect();
    assert!(String::from_utf8(records).unwrap() == expected);
}

fn program(arguments: &[&str], input: &str) -> Output {
    let mut child = Command::new(env!("CARGO_BIN_EXE_oracle"))
        .args(arguments)
        .stdin(Stdio::piped())
        .stdout(Stdio::piped())
        .stderr(Stdio::piped())
        .spawn()
        .unwrap();
    // A program that stops at its options never reads; that is no failure here.
    let _ = child.stdin.take().unwrap().write_all(input.as_bytes());
    child.wait_with_output().unwrap()
}

#[test]
fn program_answers_what_it_makes() {
    let made = program(&["make", "--seed", "1", "--count", "500", "--op", "11"], "");
    let requests = String::from_utf8(made.stdout).unwrap();
    assert_eq!(requests.lines().count(), 500);
    assert!(requests.lines().all(|line| line.starts_with("11")));
    let answered = program(&["answer"], &requests);
    assert!(answered.status.success());
    assert_eq!(answered.stdout.len(), 500 * 19);
}

#[test]
fn program_makes_borders_and_answers_them() {
    let made = program(&["make", "--borders"], "");
    let requests = String::from_utf8(made.stdout).unwrap();
    assert_eq!(requests.lines().count(), borders::requests().len());
    let answered = program(&["answer"], &requests);
    assert!(answered.status.success());
    let answers = String::from_utf8(answered.stdout).unwrap();
    for status in ["00", "06", "08", "09"] {
        assert!(answers.lines().any(|line| line.starts_with(status)));
    }
}

#[test]
fn program_reports_what_is_wrong() {
    for arguments in [
        &[][..],
        &["guess"],
        &["make", "--seed", "1"],
        &["make", "--seed", "x", "--count", "1"],
        &["make", "--edges", "--op", "12"],
        &["make", "--edges", "--op", "+1"],
    ] {
        let output = program(arguments, "");
        assert_eq!(output.status.code(), Some(2), "{arguments:?}");
        assert!(!output.stderr.is_empty() && output.stdout.is_empty());
    }
    let output = program(&["answer"], "11000000000000070002\n0D000000000000000000\n");
    assert_eq!(output.status.code(), Some(1));
    let message = String::from_utf8(output.stderr).unwrap();
    assert!(message.contains("line 2: the op is not listed (status 3)"));
}

#[test]
fn every_command_has_help_and_names_an_unknown_option() {
    let help = program(&["--help"], "");
    assert!(help.status.success());
    for command in ["answer", "make", "record"] {
        assert_eq!(program(&[command, "--help"], ""), help);
        let output = program(&[command, "--fast"], SESSION);
        assert_eq!(output.status.code(), Some(2));
        let message = String::from_utf8(output.stderr).unwrap();
        let unknown = format!("unknown option `--fast` of {command}");
        assert!(output.stdout.is_empty() && message.contains(&unknown));
    }
}
