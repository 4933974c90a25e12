//! Which road each one of a quotient came by: held to the rule written out here and to what `ask` gives, with all
//! dividends by some divisors, drawn operands, every refusal and numbers that cannot be asked.

use hatchyarn::raw::{self, Tallies};
use hatchyarn::{DivideRefusal, Flags, Operation, Refusal, Roads};
use std::error::Error;

const WORD: u8 = 0x01;
const SIGNED: u8 = 0x02;
const REP: u8 = 0x04;

const DIVIDE: u8 = 0x11;

fn bits(mode: u8) -> u32 {
    if mode & WORD != 0 {
        16
    } else {
        8
    }
}

fn is_negative(number: u64, bits: u32, mode: u8) -> bool {
    mode & SIGNED != 0 && number >> (bits - 1) == 1
}

/// A number of so many bits without its sign, where it has one.
fn magnitude(number: u64, bits: u32, mode: u8) -> u64 {
    if is_negative(number, bits, mode) {
        (1 << bits) - number
    } else {
        number
    }
}

/// Both operands without their signs.
fn magnitudes(mode: u8, dividend: u32, divisor: u16) -> (u64, u64) {
    (
        magnitude(dividend.into(), 2 * bits(mode), mode),
        magnitude(divisor.into(), bits(mode), mode),
    )
}

/// By docs/CHARTS.md, but not round by round: what a round shifts is told by the quotient's bits above its own.
fn on_paper(mode: u8, dividend: u32, divisor: u16) -> Tallies {
    let mut told = Tallies {
        status: status(mode, dividend, divisor),
        shifted_out: 0,
        no_borrow: 0,
    };
    if told.status != 0 {
        return told;
    }
    let (dividend, divisor) = magnitudes(mode, dividend, divisor);
    let quotient = dividend / divisor;
    for place in (0..bits(mode)).filter(|place| quotient >> place & 1 == 1) {
        let shifted = (dividend >> place) - (quotient >> (place + 1)) * 2 * divisor;
        if shifted >> bits(mode) != 0 {
            told.shifted_out += 1;
        } else {
            told.no_borrow += 1;
        }
    }
    told
}

fn status(mode: u8, dividend: u32, divisor: u16) -> u8 {
    if mode > 0x07 {
        return 4;
    }
    if bits(mode) == 8 && (dividend > 0xFFFF || divisor > 0xFF) {
        return 5;
    }
    let (dividend, divisor) = magnitudes(mode, dividend, divisor);
    match dividend.checked_div(divisor) {
        None => 6,
        Some(quotient) if quotient >> bits(mode) != 0 => 8,
        Some(quotient) if mode & SIGNED != 0 && quotient >> (bits(mode) - 1) != 0 => 9,
        Some(_) => 0,
    }
}

/// The steps of a divide that is done, made up from the tallies.
fn steps(mode: u8, dividend: u32, divisor: u16, told: Tallies) -> u32 {
    let (size, by) = magnitudes(mode, dividend, divisor);
    let odd = size / by % 2 == 1;
    let rounds = 8 * bits(mode) + u32::from(told.no_borrow) + if odd { 2 } else { 0 };
    if mode & SIGNED == 0 {
        return 13 + rounds;
    }
    let first = if is_negative(dividend.into(), 2 * bits(mode), mode) {
        7
    } else {
        3
    };
    let second = if is_negative(divisor.into(), bits(mode), mode) {
        5
    } else {
        6
    };
    25 + rounds + first + second
}

/// The typed form, which has no REP.
fn typed(mode: u8, dividend: u32, divisor: u16) -> Result<Roads, DivideRefusal> {
    let signed = mode & SIGNED != 0;
    match bits(mode) {
        8 => Roads::of_divide8(
            dividend.try_into().unwrap(),
            divisor.try_into().unwrap(),
            signed,
        ),
        _ => Roads::of_divide16(dividend, divisor, signed),
    }
}

/// What is told is that of the rule, agrees with `ask`, and is the same in the typed form.
fn holds(mode: u8, dividend: u32, divisor: u16) -> Tallies {
    let told = raw::roads(mode, dividend, divisor);
    let asked = format!("{mode:02X} {dividend:08X} / {divisor:04X}");
    assert_eq!(told, on_paper(mode, dividend, divisor), "{asked}");
    for flags in [0x0000, 0x08D5, 0x0041] {
        let answer = raw::ask(DIVIDE, mode, flags, dividend, divisor);
        assert_eq!(told.status, answer.status, "{asked}, flags {flags:04X}");
        if told.status == 0 {
            let made_up = steps(mode, dividend, divisor, told);
            assert_eq!(u32::from(answer.steps), made_up, "{asked}");
        }
    }
    match told.status {
        4 | 5 => (),
        0 => {
            let (size, by) = magnitudes(mode, dividend, divisor);
            let roads = typed(mode, dividend, divisor).unwrap();
            let got = (roads.shifted_out, roads.no_borrow);
            assert_eq!(got, (told.shifted_out, told.no_borrow), "{asked}");
            assert_eq!(roads.ones(), (size / by).count_ones(), "{asked}");
        }
        status => {
            let refusal = typed(mode, dividend, divisor).unwrap_err();
            assert_eq!(refusal.status(), status, "{asked}");
        }
    }
    told
}

/// Numbers that look as if drawn.
struct Draw(u64);

impl Draw {
    fn next(&mut self) -> u32 {
        self.0 = self
            .0
            .wrapping_mul(6_364_136_223_846_793_005)
            .wrapping_add(1_442_695_040_888_963_407);
        (self.0 >> 32) as u32
    }
}

/// A dividend and a divisor, most often with a quotient that is not too wide.
fn drawn(draw: &mut Draw, mode: u8) -> (u32, u16) {
    let ones = u32::MAX >> (32 - 2 * bits(mode));
    let divisor = match draw.next() % 4 {
        0 => draw.next() >> (draw.next() % 32),
        1 => draw.next() | 1 << (bits(mode) - 1),
        _ => draw.next(),
    } & ones >> bits(mode);
    let most = (u64::from(divisor) << bits(mode)).max(1);
    let dividend = match draw.next() % 8 {
        0 => draw.next(),
        1 => draw.next() >> (draw.next() % 32),
        _ => (u64::from(draw.next()) % most) as u32,
    };
    let dividend = match draw.next() % 2 {
        0 => dividend,
        _ => dividend.wrapping_neg(),
    };
    (dividend & ones, divisor as u16)
}

fn tallies(status: u8, shifted_out: u16, no_borrow: u16) -> Tallies {
    Tallies {
        status,
        shifted_out,
        no_borrow,
    }
}

/// The two divides that take different steps, though both quotients are 1.
#[test]
fn the_two_divides_of_the_testers() {
    assert_eq!(holds(0x00, 0x00FF, 0xFF), tallies(0, 0, 1));
    assert_eq!(holds(0x00, 0x0100, 0xC8), tallies(0, 1, 0));
    assert_eq!(raw::ask(DIVIDE, 0x00, 0, 0x00FF, 0xFF).steps, 80);
    assert_eq!(raw::ask(DIVIDE, 0x00, 0, 0x0100, 0xC8).steps, 79);
}

#[test]
fn all_dividends_of_8_bits_by_some_divisors() {
    for mode in [0x00, SIGNED] {
        for divisor in [0x00, 0x01, 0x05, 0x7F, 0x80, 0x81, 0xC8, 0xFF] {
            for dividend in 0..=0xFFFF {
                holds(mode, dividend, divisor);
            }
        }
    }
}

#[test]
fn drawn_operands() {
    let mut draw = Draw(1);
    let mut seen = [0; 10];
    for mode in 0..8 {
        for _ in 0..20_000 {
            let (dividend, divisor) = drawn(&mut draw, mode);
            seen[usize::from(holds(mode, dividend, divisor).status)] += 1;
        }
    }
    for status in [0, 6, 8, 9] {
        assert!(seen[status] > 500, "{seen:?}");
    }
}

/// So a signed divide has none, and neither has an unsigned one by 2^(N-1) or less.
#[test]
fn no_bit_is_shifted_out_by_a_divisor_of_at_most_half() {
    let mut draw = Draw(2);
    let mut some = 0;
    for mode in 0..8 {
        for _ in 0..20_000 {
            let (dividend, divisor) = drawn(&mut draw, mode);
            let (_, by) = magnitudes(mode, dividend, divisor);
            let shifted_out = raw::roads(mode, dividend, divisor).shifted_out;
            if by <= 1 << (bits(mode) - 1) {
                assert_eq!(shifted_out, 0, "{mode:02X} {dividend:08X} / {divisor:04X}");
            } else {
                assert_eq!(mode & SIGNED, 0);
                some += i32::from(shifted_out != 0);
            }
        }
    }
    assert!(some > 10_000, "{some}");
}

/// Two unsigned divides of one quotient and one width: the steps differ exactly where the first tallies do.
#[test]
fn equal_quotients_and_equal_steps() {
    let mut draw = Draw(3);
    let (mut alike, mut different) = (0, 0);
    for mode in [0x00, WORD] {
        let ones = u32::MAX >> (32 - bits(mode));
        for _ in 0..20_000 {
            let quotient = draw.next() & ones;
            let mut divide = || {
                let divisor = draw.next() & ones | 1;
                let dividend = quotient * divisor + draw.next() % divisor;
                let answer = raw::ask(DIVIDE, mode, 0, dividend, divisor as u16);
                assert_eq!((answer.status, u32::from(answer.r)), (0, quotient));
                (holds(mode, dividend, divisor as u16), answer.steps)
            };
            let ((told, steps), (other, more)) = (divide(), divide());
            let equal = told.shifted_out == other.shifted_out;
            assert_eq!(equal, steps == more);
            if equal {
                alike += 1;
            } else {
                different += 1;
            }
        }
    }
    assert!(alike > 5_000 && different > 5_000, "{alike} {different}");
}

#[test]
fn rep_changes_nothing() {
    let mut draw = Draw(4);
    for mode in 0..=0xFF {
        for _ in 0..200 {
            let (dividend, divisor) = drawn(&mut draw, mode & 0x03);
            let other = raw::roads(mode ^ REP, dividend, divisor);
            assert_eq!(raw::roads(mode, dividend, divisor), other);
        }
    }
}

/// A wrong mode comes first, whatever the operands are.
#[test]
fn a_wrong_mode_is_4_and_has_no_roads() {
    let operands = [
        (0x00FF, 0xFF),
        (0x0100, 0xC8),
        (7, 0),
        (0x1_0000, 1),
        (7, 0x100),
        (u32::MAX, 0xFFFF),
    ];
    for mode in 0x08..=0xFF {
        for (dividend, divisor) in operands {
            assert_eq!(holds(mode, dividend, divisor), tallies(4, 0, 0));
        }
    }
}

/// Also where what the width holds of the operands would be divided, and where the divisor is 0.
#[test]
fn operands_too_large_are_5_and_have_no_roads() {
    for mode in [0x00, SIGNED, REP, SIGNED | REP] {
        assert_eq!(holds(mode, 7, 2), tallies(0, 0, 2));
        let too_large = (16..32).map(|place| (7 | 1 << place, 2));
        let too_wide = (8..16).map(|place| (7, 2 | 1 << place));
        let both = [(0x1_0000, 0x100), (u32::MAX, 0xFFFF), (0x1_0007, 0)];
        for (dividend, divisor) in too_large.chain(too_wide).chain(both) {
            assert_eq!(holds(mode, dividend, divisor), tallies(5, 0, 0));
            // At 16 bits no operand is.
            assert_ne!(holds(mode | WORD, dividend, divisor).status, 5);
        }
    }
}

/// Each with the one beside it that is done; a refusal is the same under REP.
#[test]
fn refused_divides_have_no_roads() {
    let refused = [
        (0x00, 0x0007, 0x00, 6),
        (SIGNED, 0x0007, 0x00, 6),
        (WORD, 0x0007, 0x0000, 6),
        (WORD | SIGNED, 0x8000_0000, 0x0000, 6),
        (0x00, 0xC800, 0xC8, 8),
        (SIGNED, 0x8000, 0x7F, 8),
        (WORD, 0xC800_0000, 0xC800, 8),
        (WORD | SIGNED, 0x7FFF_FFFF, 0x0001, 8),
        (SIGNED, 0xFF80, 0x01, 9),
        (SIGNED, 0x7FFF, 0x80, 9),
        (WORD | SIGNED, 0xFFFF_8000, 0x0001, 9),
        (WORD | SIGNED, 0x3FFF_8000, 0x7FFF, 9),
    ];
    for (mode, dividend, divisor, status) in refused {
        for rep in [0, REP] {
            assert_eq!(holds(mode | rep, dividend, divisor), tallies(status, 0, 0));
        }
    }
    assert_eq!(holds(0x00, 0xC7FF, 0xC8), tallies(0, 8, 0));
    assert_eq!(holds(SIGNED, 0xFF81, 0x01), tallies(0, 0, 7));
    assert_eq!(holds(WORD | SIGNED, 0xFFFF_8001, 0x0001), tallies(0, 0, 15));
}

/// A quotient of 0 has no ones, and is no refusal.
#[test]
fn no_ones_and_all_ones() {
    for mode in 0..8 {
        let ones = u32::MAX >> (32 - bits(mode));
        assert_eq!(holds(mode, 0, 1), tallies(0, 0, 0));
        if mode & SIGNED != 0 {
            assert_eq!(
                holds(mode, ones / 2, 1),
                tallies(0, 0, bits(mode) as u16 - 1)
            );
            continue;
        }
        let full = bits(mode) as u16;
        assert_eq!(holds(mode, ones, 1), tallies(0, 0, full));
        let most = (ones << bits(mode)) - 1;
        assert_eq!(holds(mode, most, ones as u16), tallies(0, full, 0));
    }
}

#[test]
fn told_in_words() {
    let words = |shifted_out, no_borrow| {
        Roads {
            shifted_out,
            no_borrow,
        }
        .to_string()
    };
    assert_eq!(words(0, 0), "0 ones by a bit shifted out, 0 by no borrow");
    assert_eq!(words(0, 1), "0 ones by a bit shifted out, 1 by no borrow");
    assert_eq!(words(1, 0), "1 one by a bit shifted out, 0 by no borrow");
    assert_eq!(words(1, 1), "1 one by a bit shifted out, 1 by no borrow");
    assert_eq!(words(2, 3), "2 ones by a bit shifted out, 3 by no borrow");
    assert_eq!(words(11, 5), "11 ones by a bit shifted out, 5 by no borrow");
    let padded = Roads::of_divide8(0x0100, 0xC8, false).unwrap();
    assert_eq!(
        format!("{padded:.>48}"),
        "......1 one by a bit shifted out, 0 by no borrow"
    );
}

/// A signed divide at 8 bits.
fn divide(dividend: u16, divisor: u8) -> Operation {
    Operation::Divide8 {
        dividend,
        divisor,
        signed: true,
        rep: false,
    }
}

/// The steps and roads of it, as a program tells them that hands refusals on.
fn explained(dividend: u16, divisor: u8) -> Result<String, Box<dyn Error>> {
    let roads = Roads::of_divide8(dividend, divisor, true)?;
    let answer = divide(dividend, divisor).ask(Flags::NONE)?;
    Ok(format!("{} steps: {roads}", answer.steps))
}

/// A refusal is an error, that of a request and that of the roads alike.
#[test]
fn a_refusal_is_an_error_in_words() {
    let wide = "the quotient needs more bits than the divisor has";
    let range = "the quotient does not fit with its sign";
    assert_eq!(
        explained(0xFF81, 0x01).unwrap(),
        "111 steps: 0 ones by a bit shifted out, 7 by no borrow"
    );
    for (dividend, divisor, why, words) in [
        (0x0007, 0x00, DivideRefusal::ZeroDivisor, "the divisor is 0"),
        (0x7FFF, 0x01, DivideRefusal::TooWide, wide),
        (0xFF80, 0x01, DivideRefusal::SignRange, range),
    ] {
        assert_eq!(Roads::of_divide8(dividend, divisor, true), Err(why));
        let error = explained(dividend, divisor).unwrap_err();
        assert_eq!(error.to_string(), words);
        assert_eq!(error.downcast_ref(), Some(&why));
        let Err(Refusal::Divide { why: other, .. }) = divide(dividend, divisor).ask(Flags::NONE)
        else {
            panic!("{dividend:04X} / {divisor:02X} is not refused");
        };
        assert_eq!(other, why);
    }
}

/// The cells behind the words, of each row of the table of docs/CHARTS.md with this head.
fn charted(head: &str) -> Vec<Vec<&'static str>> {
    let page = include_str!("../../docs/CHARTS.md");
    let from = page.lines().skip_while(|line| !line.starts_with(head));
    let rows = from.skip(2).take_while(|line| line.starts_with('|'));
    rows.map(|row| {
        let cells = row.trim_matches('|').split('|').skip(1);
        cells.map(|cell| cell.trim().trim_matches('`')).collect()
    })
    .collect()
}

#[test]
fn the_examples_of_the_charts() {
    let mut seen = Vec::new();
    for cells in charted("| which divide | mode |") {
        let [mode, dividend, divisor, status, quotient, steps, shifted_out, no_borrow] = cells[..]
        else {
            panic!("{cells:?}");
        };
        let number = |cell| u32::from_str_radix(cell, 16).unwrap();
        let [mode, dividend, divisor] = [mode, dividend, divisor].map(number);
        let (mode, divisor) = (mode.try_into().unwrap(), divisor.try_into().unwrap());
        let told = holds(mode, dividend, divisor);
        let counted = [told.status.into(), told.shifted_out, told.no_borrow];
        let [status, shifted_out, no_borrow] =
            [status, shifted_out, no_borrow].map(|cell| cell.parse().unwrap());
        assert_eq!(counted, [status, shifted_out, no_borrow], "{cells:?}");
        let answer = raw::ask(DIVIDE, mode, 0, dividend, divisor);
        assert_eq!(answer.steps.to_string(), steps, "{cells:?}");
        match quotient {
            "" => assert_ne!(told.status, 0, "{cells:?}"),
            digits => assert_eq!((told.status, answer.r.into()), (0, number(digits))),
        }
        seen.push((told.status, mode & 0x03));
    }
    seen.sort();
    seen.dedup();
    let done = seen.iter().filter(|(status, _)| *status == 0).count();
    assert_eq!(
        done, 4,
        "an example of each width, signed and not: {seen:?}"
    );
    for status in [4, 5, 6, 8, 9] {
        assert!(seen.iter().any(|(given, _)| *given == status), "{status}");
    }
}
