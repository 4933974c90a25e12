//! Requests made from types: the examples of the scope, and each operation beside its line.

use hatchyarn::raw::Numbers;
use hatchyarn::{answer_line, raw, Adjust, DivideRefusal, Flags, Operation, Refusal, Shift, Sum};

/// Every kind of operation, and none of them a trap.
const EACH: [Operation; 27] = [
    Operation::Sum8(Sum::Add, 0x7F, 0x81),
    Operation::Sum8(Sum::Adc, 0xFF, 0x00),
    Operation::Sum8(Sum::Sub, 0x10, 0x21),
    Operation::Sum8(Sum::Sbb, 0x00, 0xFF),
    Operation::Sum16(Sum::Add, 0x7FFF, 0x8123),
    Operation::Neg8(0x35),
    Operation::Neg16(0x3501),
    Operation::Shift8(Shift::Shl, 0x81, 3),
    Operation::Shift8(Shift::Shr, 0x95, 2),
    Operation::Shift8(Shift::Sar, 0x95, 2),
    Operation::Shift8(Shift::Rol, 0x95, 11),
    Operation::Shift8(Shift::Ror, 0x97, 3),
    Operation::Shift8(Shift::Rcl, 0x96, 4),
    Operation::Shift8(Shift::Rcr, 0x96, 6),
    Operation::Shift8(Shift::ShlAf, 0x8B, 1),
    Operation::Shift16(Shift::Rcr, 0x9601, 255),
    Operation::Multiply8 {
        x: 0x80,
        y: 0x7F,
        signed: true,
        rep: true,
    },
    Operation::Multiply16 {
        x: 0x8001,
        y: 0xFFFE,
        signed: false,
        rep: false,
    },
    Operation::Divide8 {
        dividend: 0xFF81,
        divisor: 0x01,
        signed: true,
        rep: false,
    },
    Operation::Divide8 {
        dividend: 0x0100,
        divisor: 0xC8,
        signed: false,
        rep: true,
    },
    Operation::Divide16 {
        dividend: 0x7FFE_FFFF,
        divisor: 0x7FFF,
        signed: false,
        rep: false,
    },
    Operation::Divide16 {
        dividend: 0xFFFF_FFF9,
        divisor: 0x0002,
        signed: true,
        rep: true,
    },
    Operation::Adjust(Adjust::Aaa, 0x00FA),
    Operation::Adjust(Adjust::Aas, 0x0106),
    Operation::Adjust(Adjust::Daa, 0x009A),
    Operation::Adjust(Adjust::Das, 0x12AB),
    Operation::Aad {
        ax: 0x0509,
        byte: 10,
    },
];

#[test]
fn each_operation_is_its_line() {
    for operation in EACH {
        let (op, mode, x, y) = operation.numbers();
        let flags = Flags::CARRY | Flags::SIGN;
        let line = format!("{op:02X}{mode:02X}{:04X}{x:08X}{y:04X}", flags.word());
        let answer = operation.ask(flags).expect("it is admitted and no trap");
        let written = format!(
            "00{:04X}{:04X}{:04X}{:04X}\n",
            answer.flags.word(),
            answer.steps,
            answer.r,
            answer.s
        );
        assert_eq!(
            answer_line(line.as_bytes()),
            written.as_bytes(),
            "{operation:?}"
        );
    }
}

#[test]
fn the_examples_of_the_scope() {
    let r = |operation: Operation, flags| {
        let answer = operation.ask(flags).unwrap();
        (answer.r, answer.s, answer.steps)
    };
    let divide = |dividend, divisor, signed| Operation::Divide8 {
        dividend,
        divisor,
        signed,
        rep: false,
    };
    let none = Flags::NONE;
    assert_eq!(
        r(Operation::Sum8(Sum::Adc, 0xFF, 0), Flags::CARRY),
        (0, 0, 0)
    );
    assert_eq!(r(Operation::Shift8(Shift::Shl, 1, 9), none), (0, 0, 0));
    assert_eq!(r(divide(0x00FF, 0xFF, false), none), (1, 0, 80));
    assert_eq!(r(divide(0x0100, 0xC8, false), none), (1, 0x38, 79));
    assert_eq!(r(divide(0xFF81, 0x01, true), none), (0x81, 0, 111));
    assert_eq!(r(divide(0xFFF9, 0x02, true), none), (0xFD, 0xFF, 106));
    assert_eq!(r(Operation::Adjust(Adjust::Aaa, 0x00FA), none).0, 0x0100);
}

/// What a divide is asked with besides its operands.
#[derive(Clone, Copy)]
struct Kind {
    bits: u32,
    signed: bool,
    rep: bool,
}

/// Both widths, signed and not, under REP and not.
fn kinds() -> impl Iterator<Item = Kind> {
    (0..8).map(|n| Kind {
        bits: if n & 1 == 0 { 8 } else { 16 },
        signed: n & 2 != 0,
        rep: n & 4 != 0,
    })
}

impl Kind {
    /// The divide whose operands stand for these numbers.
    fn divide(self, dividend: i64, divisor: i64) -> Operation {
        let Kind { bits, signed, rep } = self;
        match bits {
            8 => Operation::Divide8 {
                dividend: dividend as u16,
                divisor: divisor as u8,
                signed,
                rep,
            },
            _ => Operation::Divide16 {
                dividend: dividend as u32,
                divisor: divisor as u16,
                signed,
                rep,
            },
        }
    }

    /// The steps up to the trap, by docs/CHARTS.md. No bit is shifted out by the divisors used here.
    fn steps(self, dividend: i64, divisor: i64, why: DivideRefusal) -> u16 {
        let of_signs = if dividend < 0 { 7 } else { 3 } + if divisor < 0 { 5 } else { 6 };
        let steps = match why {
            DivideRefusal::SignRange => {
                let quotient = (dividend / divisor).unsigned_abs();
                let of_quotient = quotient.count_ones() + if quotient % 2 == 1 { 2 } else { 0 };
                11 + of_signs + 6 + 8 * self.bits + of_quotient
            }
            _ if self.signed => 10 + of_signs,
            _ => 9,
        };
        steps as u16
    }

    /// The flags after the trap, by docs/CHARTS.md: those of the first compare, or for sign range of the
    /// last, in which no bit is shifted out.
    fn flags(self, dividend: i64, divisor: i64, why: DivideRefusal) -> Flags {
        let (dividend, right) = (dividend.abs(), divisor.abs());
        let left = match why {
            DivideRefusal::SignRange => dividend / 2 % right * 2 + dividend % 2,
            _ => dividend >> self.bits,
        };
        self.compared(left, right)
    }

    /// A, O, S, Z and P of left less right, and C clear.
    fn compared(self, left: i64, right: i64) -> Flags {
        let (range, half) = (1 << self.bits, 1 << (self.bits - 1));
        let signed = |side: i64| if side < half { side } else { side - range };
        let difference = (left - right).rem_euclid(range);
        let set = [
            (Flags::AUX_CARRY, left % 16 < right % 16),
            (
                Flags::OVERFLOW,
                !(-half..half).contains(&(signed(left) - signed(right))),
            ),
            (Flags::SIGN, difference >= 0x8000),
            (Flags::ZERO, difference == 0),
            (Flags::PARITY, (difference % 0x100).count_ones() % 2 == 0),
        ];
        let named = set.iter().filter(|(_, is_set)| *is_set);
        named.fold(Flags::NONE, |flags, (flag, _)| flags | *flag)
    }

    /// The divide is refused for this reason, with the chip's flags whatever is handed in, and so is its
    /// line.
    fn is_refused(self, dividend: i64, divisor: i64, why: DivideRefusal) {
        let divide = self.divide(dividend, divisor);
        let steps = self.steps(dividend, divisor, why);
        let flags = self.flags(dividend, divisor, why);
        for handed_in in [Flags::NONE, Flags::ALL] {
            let refusal = Refusal::Divide { why, flags, steps };
            assert_eq!(divide.ask(handed_in), Err(refusal), "{divide:?}");
            let (op, mode, x, y) = divide.numbers();
            let line = format!("{op:02X}{mode:02X}{:04X}{x:08X}{y:04X}", handed_in.word());
            let written = format!(
                "{:02X}{:04X}{steps:04X}00000000\n",
                why.status(),
                flags.word()
            );
            assert_eq!(answer_line(line.as_bytes()), written.as_bytes(), "{line}");
        }
    }
}

#[test]
fn a_divisor_of_0_is_told_from_all_else() {
    for kind in kinds() {
        for dividend in [0, 1, (1 << kind.bits) - 1, 1 << kind.bits] {
            kind.is_refused(dividend, 0, DivideRefusal::ZeroDivisor);
        }
        if kind.signed {
            kind.is_refused(-1, 0, DivideRefusal::ZeroDivisor);
        }
    }
}

/// A dividend and a divisor for a quotient of this magnitude: of each sign if signed, and with nothing left
/// over as well as with as much as can be.
fn operands(kind: Kind, magnitude: i64) -> Vec<(i64, i64)> {
    let signs: &[(i64, i64)] = match kind.signed {
        false => &[(1, 1)],
        true => &[(1, 1), (1, -1), (-1, 1), (-1, -1)],
    };
    let mut made = Vec::new();
    for divisor in [1, 2, 5, (1 << (kind.bits - 1)) - 1] {
        for left_over in [0, divisor - 1] {
            let dividend = magnitude * divisor + left_over;
            made.extend(signs.iter().map(|(a, b)| (a * dividend, b * divisor)));
        }
    }
    made
}

#[test]
fn a_quotient_is_refused_from_its_border_on() {
    for kind in kinds() {
        let half = 1 << (kind.bits - 1);
        let sign_range = kind.signed.then_some(DivideRefusal::SignRange);
        let borders = [
            (half - 1, None),
            (half, sign_range),
            (2 * half - 1, sign_range),
            (2 * half, Some(DivideRefusal::TooWide)),
        ];
        for (magnitude, wanted) in borders {
            for (dividend, divisor) in operands(kind, magnitude) {
                match wanted {
                    Some(why) => kind.is_refused(dividend, divisor, why),
                    None => assert!(kind.divide(dividend, divisor).ask(Flags::ALL).is_ok()),
                }
            }
        }
    }
}

#[test]
fn a_refused_divide_says_why() {
    let refusal = |why| Refusal::Divide {
        why,
        flags: Flags::NONE,
        steps: 9,
    };
    let said = [
        (DivideRefusal::ZeroDivisor, "the divisor is 0"),
        (
            DivideRefusal::TooWide,
            "the quotient needs more bits than the divisor has",
        ),
        (
            DivideRefusal::SignRange,
            "the quotient does not fit with its sign",
        ),
    ];
    for (why, words) in said {
        assert_eq!(why.to_string(), words);
        let sentence = format!("the divide is refused: {words}");
        assert_eq!(refusal(why).to_string(), sentence);
        assert_eq!(format!("{:80}|", refusal(why)), format!("{sentence:80}|"));
    }
}

#[test]
fn numbers_from_elsewhere_are_refused_by_name() {
    let result = |op, mode, flags, x, y| raw::ask(op, mode, flags, x, y).result().unwrap_err();
    assert_eq!(result(0x0D, 0, 0, 0, 0), Refusal::Operation);
    assert_eq!(result(0x00, 8, 0, 0, 0), Refusal::Mode);
    assert_eq!(result(0x00, 0, 0, 0x100, 0), Refusal::TooLarge);
    assert_eq!(result(0x00, 0, 2, 0, 0), Refusal::TooLarge);
    assert_eq!(result(0x11, 0, 0, 0, 0).status(), 6);
    assert_eq!(result(0x11, 0, 0, 0x100, 1).status(), 8);
    assert_eq!(result(0x11, 2, 0, 0x80, 1).status(), 9);
}

#[test]
fn each_status_has_a_refusal_of_its_own() {
    for status in 1..=9 {
        let numbers = Numbers {
            status,
            flags: 0,
            steps: 0,
            r: 0,
            s: 0,
        };
        assert_eq!(numbers.result().map_err(Refusal::status), Err(status));
    }
}

#[test]
fn flags_show_their_letters() {
    assert_eq!((Flags::CARRY | Flags::AUX_CARRY).to_string(), "C A");
    assert_eq!(Flags::NONE.to_string(), "-");
}
