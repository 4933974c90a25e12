//! Edges, borders, draws and records hold every outcome of a divide in every mode, and divides one to
//! either side of each border between outcomes. What the outcome has to be is worked out here anew.

use oracle::draw::Draw;
use oracle::edges::Composed;
use oracle::request::{Mode, Operation};
use oracle::{answer, borders, edges, Request};
use std::collections::HashMap;
use std::convert::Infallible;

const RECORDS: &[u8] = include_bytes!("../../crates/replay/stdin");

const ACCEPTED: u8 = 0;
const ZERO_DIVISOR: u8 = 6;
const TOO_WIDE: u8 = 8;
const SIGN_RANGE: u8 = 9;

fn modes() -> impl Iterator<Item = Mode> {
    Operation::all().filter_map(|operation| match operation {
        Operation::Divide(mode) => Some(mode),
        _ => None,
    })
}

/// The two magnitudes of a quotient from which on another status may be given.
fn border_quotients(mode: Mode) -> [u64; 2] {
    [mode.width.bits() - 1, mode.width.bits()].map(|bits| 1 << bits)
}

/// The status of a divide whose quotient has this magnitude.
fn status_of(mode: Mode, quotient: u64) -> u8 {
    let [half, whole] = border_quotients(mode);
    match mode.signed {
        _ if quotient >= whole => TOO_WIDE,
        true if quotient >= half => SIGN_RANGE,
        _ => ACCEPTED,
    }
}

/// The statuses that a mode has.
fn statuses(mode: Mode) -> Vec<u8> {
    let mut statuses = vec![ACCEPTED, ZERO_DIVISOR, TOO_WIDE];
    statuses.extend(mode.signed.then_some(SIGN_RANGE));
    statuses
}

/// A dividend or a divisor, its sign apart.
#[derive(Clone, Copy, Debug, PartialEq, Eq, Hash)]
struct Number {
    negative: bool,
    magnitude: u64,
}

impl Number {
    fn read(mode: Mode, bits: u32, value: u32) -> Number {
        let value = u64::from(value);
        let negative = mode.signed && value >> (bits - 1) != 0;
        let magnitude = if negative { (1 << bits) - value } else { value };
        Number {
            negative,
            magnitude,
        }
    }
}

/// The signs of dividend and divisor that a mode has.
fn signs(mode: Mode) -> Vec<[bool; 2]> {
    let all = [[false, false], [true, false], [false, true], [true, true]];
    all[..if mode.signed { 4 } else { 1 }].to_vec()
}

/// The divides of a list with their statuses: mode, dividend, divisor.
#[derive(Default)]
struct Divides(HashMap<(u8, Number, Number), u8>);

impl Divides {
    fn add(&mut self, request: &Request, status: u8) {
        let Operation::Divide(mode) = request.operation() else {
            return;
        };
        let bits = mode.width.bits();
        let dividend = Number::read(mode, 2 * bits, request.x());
        let divisor = Number::read(mode, bits, request.y().into());
        let expected = match dividend.magnitude.checked_div(divisor.magnitude) {
            Some(quotient) => status_of(mode, quotient),
            None => ZERO_DIVISOR,
        };
        let line = request.to_line();
        assert_eq!(status, expected, "{}", String::from_utf8_lossy(&line));
        self.0.insert((code(mode), dividend, divisor), status);
    }

    fn ask(&mut self, request: &Request) {
        self.add(request, answer(request).status());
    }

    fn hold_statuses(&self) {
        for mode in modes() {
            for status in statuses(mode) {
                let mut divides = self.0.iter();
                let found = divides.any(|(divide, of)| (divide.0, *of) == (code(mode), status));
                assert!(found, "{mode:?} has no status {status}");
            }
        }
    }

    fn has(&self, mode: Mode, signs: [bool; 2], magnitudes: [u64; 2]) -> bool {
        let number = |place: usize| Number {
            negative: signs[place],
            magnitude: magnitudes[place],
        };
        self.0.contains_key(&(code(mode), number(0), number(1)))
    }

    /// Each border has, for all signs, two divides by one divisor with dividends one apart.
    fn hold_pairs(&self) {
        for mode in modes() {
            for signs in signs(mode) {
                for border in border_quotients(mode) {
                    let mut divisors = 1..=u64::from(mode.width.largest());
                    let found = divisors.any(|divisor| {
                        let mut pair = [border * divisor - 1, border * divisor].into_iter();
                        pair.all(|dividend| self.has(mode, signs, [dividend, divisor]))
                    });
                    assert!(found, "{mode:?}, negative {signs:?}: no pair at {border:X}");
                }
            }
        }
    }

    /// For each other status some dividend is divided with it by 1, and is divided by 0 too.
    fn hold_zero_divisors(&self) {
        for mode in modes() {
            let is_beside = |divide: &(u8, Number, Number), status: u8| {
                let &(of, dividend, divisor) = divide;
                let zero = Number {
                    negative: false,
                    magnitude: 0,
                };
                of == code(mode)
                    && divisor.magnitude == 1
                    && self.0[divide] == status
                    && self.0.contains_key(&(of, dividend, zero))
            };
            for status in statuses(mode) {
                let found = self.0.keys().any(|divide| is_beside(divide, status));
                assert!(found || status == ZERO_DIVISOR, "{mode:?}, {status} by 1");
            }
        }
    }

    /// Each border has, for all signs, the last dividend before it and the first from it on, by
    /// divisors that may differ.
    fn hold_sides(&self) {
        for mode in modes() {
            for signs in signs(mode) {
                for border in border_quotients(mode) {
                    for before in [1, 0] {
                        let found = self.0.keys().any(|(of, dividend, divisor)| {
                            *of == code(mode)
                                && [dividend.negative, divisor.negative] == signs
                                && divisor.magnitude > 0
                                && dividend.magnitude + before == border * divisor.magnitude
                        });
                        assert!(found, "{mode:?}, negative {signs:?}: {border:X} - {before}");
                    }
                }
            }
        }
    }
}

fn code(mode: Mode) -> u8 {
    Operation::Divide(mode).code().1
}

/// Every divide that can be composed of edges, with its mode.
fn composed() -> impl Iterator<Item = (Mode, Composed)> {
    modes().flat_map(|mode| {
        let quotients = [&edges::quotients(mode), edges::refused_quotients(mode)].concat();
        let divisors = edges::of(mode.width)
            .iter()
            .filter(|&&divisor| divisor != 0);
        let mut all = Vec::new();
        for &divisor in divisors {
            for &quotient in &quotients {
                for remainder in [0, 1, u32::MAX] {
                    all.extend(signs(mode).into_iter().map(|signs| Composed {
                        quotient,
                        divisor,
                        remainder,
                        dividend_negative: signs[0],
                        divisor_negative: signs[1],
                    }));
                }
            }
        }
        all.into_iter().map(move |composed| (mode, composed))
    })
}

/// Operands give the quotient and remainder that they were composed of. There are none only where no
/// dividend is so large.
#[test]
fn a_composed_divide_has_its_outcome() {
    for (mode, composed) in composed() {
        let bits = mode.width.bits();
        let divisor = Number::read(mode, bits, composed.divisor.into()).magnitude;
        let remainder = u64::from(composed.remainder).min(divisor - 1);
        let dividend = u64::from(composed.quotient) * divisor + remainder;
        let most = 1 << (2 * bits - u32::from(mode.signed));
        match composed.operands(mode) {
            Some((x, y)) => {
                let x = Number::read(mode, 2 * bits, x).magnitude;
                let y = Number::read(mode, bits, y.into()).magnitude;
                assert_eq!((x, y), (dividend, divisor), "{mode:?} {composed:?}");
            }
            None if mode.signed => assert!(dividend > most, "{mode:?} {composed:?}"),
            None => assert!(dividend >= most, "{mode:?} {composed:?}"),
        }
    }
}

#[test]
fn the_edges_hold_both_sides_of_every_border() {
    let mut divides = Divides::default();
    for mode in modes() {
        let mut take = |request: Request| {
            divides.ask(&request);
            Ok::<(), Infallible>(())
        };
        let Ok(()) = edges::each(Operation::Divide(mode), &mut take);
    }
    divides.hold_statuses();
    divides.hold_pairs();
    divides.hold_zero_divisors();
}

#[test]
fn the_borders_hold_both_sides_of_every_border() {
    let mut divides = Divides::default();
    for request in borders::requests() {
        divides.ask(&request);
    }
    divides.hold_statuses();
    divides.hold_pairs();
    divides.hold_zero_divisors();
}

#[test]
fn a_draw_of_some_thousands_has_every_outcome() {
    let operations: Vec<Operation> = Operation::all().collect();
    let (mut draw, mut divides) = (Draw::new(8088), Divides::default());
    for _ in 0..8_000 {
        divides.ask(&draw.request(&operations));
    }
    divides.hold_statuses();
}

#[test]
fn the_draws_hold_both_sides_of_every_border() {
    let operations: Vec<Operation> = modes().map(Operation::Divide).collect();
    let (mut draw, mut divides) = (Draw::new(1), Divides::default());
    for _ in 0..200_000 {
        divides.ask(&draw.request(&operations));
    }
    divides.hold_statuses();
    divides.hold_sides();
}

/// A record is the answer's 18 digits, a space and the line.
#[test]
fn the_records_hold_both_sides_of_every_border() {
    let mut divides = Divides::default();
    for record in RECORDS.split(|&byte| byte == b'\n') {
        let Some((digits, line)) = record.split_at_checked(19) else {
            continue;
        };
        if let Ok(request) = Request::parse(line) {
            let status = std::str::from_utf8(&digits[..2]).expect("digits are text");
            let status = u8::from_str_radix(status, 16).expect("a status is two digits");
            divides.add(&request, status);
        }
    }
    divides.hold_statuses();
    divides.hold_pairs();
    divides.hold_zero_divisors();
}
