//! Whether a divide would trap: held to the rule written out here and to `ask`, at every border, with drawn
//! operands and with numbers that cannot be asked.

use hatchyarn::raw::{self, WouldTrap};
use hatchyarn::{Adjust, Flags, Operation, Refusal, Shift, Sum};

const WORD: u8 = 0x01;
const SIGNED: u8 = 0x02;
const REP: u8 = 0x04;

const DIVIDE: u8 = 0x11;

/// Flags to ask a divide with: none, all, and some of them.
const FLAGS: [u16; 4] = [0x0000, 0x08D5, 0x0041, 0x0894];

fn bits(mode: u8) -> u32 {
    if mode & WORD != 0 {
        16
    } else {
        8
    }
}

/// A number of so many bits without its sign, where it has one.
fn magnitude(number: u64, bits: u32, signed: bool) -> u64 {
    if signed && number >> (bits - 1) == 1 {
        (1 << bits) - number
    } else {
        number
    }
}

/// From where on the magnitude of a dividend is refused.
fn border(mode: u8, divisor: u16) -> u64 {
    let signed = mode & SIGNED != 0;
    magnitude(divisor.into(), bits(mode), signed) << (bits(mode) - u32::from(signed))
}

/// By docs/CHARTS.md.
fn on_paper(mode: u8, dividend: u32, divisor: u16) -> WouldTrap {
    let closed = |status| WouldTrap { status, trap: true };
    if mode > 0x07 {
        return closed(4);
    }
    if bits(mode) == 8 && (dividend > 0xFFFF || divisor > 0xFF) {
        return closed(5);
    }
    let size = magnitude(dividend.into(), 2 * bits(mode), mode & SIGNED != 0);
    WouldTrap {
        status: 0,
        trap: size >= border(mode, divisor),
    }
}

/// The divide that a mode and operands name, where they name one.
fn typed(mode: u8, dividend: u32, divisor: u16) -> Operation {
    let (signed, rep) = (mode & SIGNED != 0, mode & REP != 0);
    match bits(mode) {
        8 => Operation::Divide8 {
            dividend: dividend.try_into().unwrap(),
            divisor: divisor.try_into().unwrap(),
            signed,
            rep,
        },
        _ => Operation::Divide16 {
            dividend,
            divisor,
            signed,
            rep,
        },
    }
}

/// The answer is that of the rule, of `ask` with several flags and of the typed form. Returns whether it traps.
fn holds(mode: u8, dividend: u32, divisor: u16) -> bool {
    let got = raw::would_trap(mode, dividend, divisor);
    let asked = format!("{mode:02X} {dividend:08X} / {divisor:04X}");
    assert_eq!(got, on_paper(mode, dividend, divisor), "{asked}");
    for flags in FLAGS {
        let status = raw::ask(DIVIDE, mode, flags, dividend, divisor).status;
        assert_eq!(got.trap, status != 0, "{asked}, flags {flags:04X}");
        match status {
            4 | 5 => assert_eq!(got.status, status, "{asked}"),
            _ => assert_eq!(
                (got.status, [0, 6, 8, 9].contains(&status)),
                (0, true),
                "{asked}"
            ),
        }
    }
    if got.status == 0 {
        let divide = typed(mode, dividend, divisor);
        assert_eq!(divide.would_trap(), got.trap, "{asked}");
        for flags in [Flags::NONE, Flags::ALL] {
            let refused = matches!(divide.ask(flags), Err(Refusal::Divide { .. }));
            assert_eq!(refused, got.trap, "{asked}");
        }
    }
    got.trap
}

/// Numbers that look as if drawn.
struct Draw(u64);

impl Draw {
    fn next(&mut self) -> u32 {
        self.0 = self
            .0
            .wrapping_mul(6_364_136_223_846_793_005)
            .wrapping_add(1_442_695_040_888_963_407);
        (self.0 >> 32) as u32
    }
}

/// All divisors at 8 bits; at 16 those at the ends and in the middle, powers of 2 and drawn ones.
fn divisors(mode: u8) -> Vec<u16> {
    if bits(mode) == 8 {
        return (0..=0xFF).collect();
    }
    let mut draw = Draw(1);
    let mut made = vec![0x7FFF, 0x8001, 0xFFFE, 0xFFFF, 0];
    made.extend((0..16).map(|place| 1 << place));
    made.extend((0..200).map(|_| draw.next() as u16));
    made
}

#[test]
fn both_sides_of_every_border() {
    for mode in 0..8 {
        let (range, signed) = (1_u64 << (2 * bits(mode)), mode & SIGNED != 0);
        let largest = if signed { range / 2 } else { range - 1 };
        for divisor in divisors(mode) {
            let border = border(mode, divisor);
            for size in border.saturating_sub(2)..=border + 2 {
                if size > largest {
                    continue;
                }
                // The magnitude 2^(2N-1) has a negative number alone.
                if !signed || size < largest {
                    assert_eq!(holds(mode, size as u32, divisor), size >= border);
                }
                if signed {
                    let negative = (range - size) % range;
                    assert_eq!(holds(mode, negative as u32, divisor), size >= border);
                }
            }
        }
    }
}

#[test]
fn the_ends_of_each_operand() {
    for mode in 0..8 {
        let most = u32::MAX >> (32 - 2 * bits(mode));
        let half = most / 2;
        let ends = [0, 1, half - 1, half, half + 1, half + 2, most - 1, most];
        for divisor in divisors(mode) {
            for dividend in ends {
                holds(mode, dividend, divisor);
            }
        }
    }
}

/// Half of them with a quotient near its border, since most that are drawn are far from it.
#[test]
fn drawn_operands() {
    let mut draw = Draw(2);
    let mut traps = [0; 2];
    for mode in 0..8 {
        let ones = u32::MAX >> (32 - 2 * bits(mode));
        for _ in 0..20_000 {
            let divisor = (draw.next() & ones >> bits(mode)) as u16;
            let near = border(mode, divisor) as u32;
            let dividend = match draw.next() % 4 {
                0 => near.wrapping_add(draw.next() % 0x200),
                1 => near.wrapping_sub(draw.next() % 0x200),
                2 => draw.next(),
                _ => draw.next() >> (draw.next() % 32),
            };
            let dividend = match draw.next() % 2 {
                0 => dividend,
                _ => dividend.wrapping_neg(),
            };
            traps[usize::from(holds(mode, dividend & ones, divisor))] += 1;
        }
    }
    assert!(traps[0] > 20_000 && traps[1] > 20_000, "{traps:?}");
}

#[test]
fn a_divisor_of_0_always_traps() {
    for dividend in 0..=0xFFFF {
        for mode in 0..8 {
            let trap = true;
            assert_eq!(
                raw::would_trap(mode, dividend, 0),
                WouldTrap { status: 0, trap }
            );
        }
    }
    for mode in [0x01, 0x03, 0x05, 0x07] {
        for dividend in [0x1_0000, 0x7FFF_FFFF, 0x8000_0000, 0xFFFF_FFFF] {
            assert!(holds(mode, dividend, 0));
        }
    }
}

/// Its magnitude, 2^(2N-1), is that of no positive dividend; and no divisor is large enough for it.
#[test]
fn the_most_negative_dividend_always_traps() {
    for rep in [0, REP] {
        for divisor in 0..=0xFF {
            assert!(holds(SIGNED | rep, 0x8000, divisor));
            assert_eq!(holds(rep, 0x8000, divisor), divisor <= 0x80);
        }
        for divisor in 0..=0xFFFF {
            assert!(raw::would_trap(WORD | SIGNED | rep, 0x8000_0000, divisor).trap);
        }
        for divisor in divisors(WORD) {
            assert!(holds(WORD | SIGNED | rep, 0x8000_0000, divisor));
            assert_eq!(holds(WORD | rep, 0x8000_0000, divisor), divisor <= 0x8000);
        }
    }
}

#[test]
fn rep_changes_nothing() {
    let mut draw = Draw(3);
    for mode in 0..=0xFF {
        for _ in 0..200 {
            let dividend = draw.next() >> (draw.next() % 32);
            let divisor = (draw.next() >> (draw.next() % 32)) as u16;
            let other = raw::would_trap(mode ^ REP, dividend, divisor);
            assert_eq!(raw::would_trap(mode, dividend, divisor), other);
        }
    }
}

/// A wrong mode comes first, whatever the operands are, and is closed.
#[test]
fn a_wrong_mode_is_4_and_closed() {
    let operands = [
        (0, 1),
        (7, 2),
        (7, 0),
        (0x1_0000, 1),
        (7, 0x100),
        (u32::MAX, 0xFFFF),
    ];
    for mode in 0x08..=0xFF {
        for (dividend, divisor) in operands {
            assert!(holds(mode, dividend, divisor));
            assert_eq!(raw::would_trap(mode, dividend, divisor).status, 4);
        }
    }
}

/// Also where what the width holds of the operands would not trap.
#[test]
fn operands_too_large_are_5_and_closed() {
    for mode in [0x00, SIGNED, REP, SIGNED | REP] {
        assert!(!holds(mode, 7, 2));
        let too_large = (16..32).map(|place| (7 | 1 << place, 2));
        let too_wide = (8..16).map(|place| (7, 2 | 1 << place));
        let both = [(0x1_0000, 0x100), (u32::MAX, 0xFFFF), (0x1_0007, 0)];
        for (dividend, divisor) in too_large.chain(too_wide).chain(both) {
            assert!(holds(mode, dividend, divisor));
            assert_eq!(raw::would_trap(mode, dividend, divisor).status, 5);
            // At 16 bits no operand is.
            assert_eq!(raw::would_trap(mode | WORD, dividend, divisor).status, 0);
        }
    }
}

/// Each of them but a divide, with operands by which a divide would trap.
#[test]
fn nothing_but_a_divide_traps() {
    let (signed, rep) = (true, false);
    let others = [
        Operation::Sum8(Sum::Add, 0xFF, 0x00),
        Operation::Sum16(Sum::Sbb, 0xFFFF, 0x0000),
        Operation::Neg8(0x80),
        Operation::Neg16(0x8000),
        Operation::Shift8(Shift::Shl, 0xFF, 0),
        Operation::Shift16(Shift::Rcr, 0xFFFF, 0),
        Operation::Multiply8 {
            x: 0x80,
            y: 0,
            signed,
            rep,
        },
        Operation::Multiply16 {
            x: 0x8000,
            y: 0,
            signed,
            rep,
        },
        Operation::Adjust(Adjust::Daa, 0xFFFF),
        Operation::Aad {
            ax: 0xFFFF,
            byte: 0,
        },
    ];
    for operation in others {
        assert!(!operation.would_trap(), "{operation:?}");
        assert!(operation.ask(Flags::ALL).is_ok(), "{operation:?}");
    }
}

/// As many as there are keys, in their order, each as it is by itself.
#[test]
fn a_slice_of_keys_is_its_keys_one_by_one() {
    let mut draw = Draw(4);
    for length in [0, 1, 2, 3, 100, 1000] {
        let wide: Vec<u32> = (0..length)
            .map(|_| draw.next() >> (draw.next() % 32))
            .collect();
        let keys: Vec<u16> = wide.iter().map(|key| (*key >> 16) as u16).collect();
        for signed in [false, true] {
            let mode = if signed { SIGNED } else { 0 };
            for divisor in [0, 1, 5, 0x7F, 0x80, 0xFF] {
                let mut page = Operation::would_trap_each8(&keys, divisor, signed);
                for (place, &key) in keys.iter().enumerate() {
                    assert_eq!(page.len(), length - place);
                    let one = typed(mode, key.into(), divisor.into()).would_trap();
                    assert_eq!(page.next(), Some(one));
                }
                assert_eq!((page.len(), page.next()), (0, None));
            }
            for divisor in [0, 1, 5, 0x7FFF, 0x8000, 0xFFFF] {
                let mut page = Operation::would_trap_each16(&wide, divisor, signed);
                for (place, &key) in wide.iter().enumerate() {
                    assert_eq!(page.len(), length - place);
                    let one = typed(mode | WORD, key, divisor).would_trap();
                    assert_eq!(page.next(), Some(one));
                }
                assert_eq!((page.len(), page.next()), (0, None));
            }
        }
    }
}

/// The cells behind the words, of each row of the table of docs/CHARTS.md with this head.
fn charted(head: &str) -> Vec<Vec<&'static str>> {
    let page = include_str!("../../docs/CHARTS.md");
    let from = page.lines().skip_while(|line| !line.starts_with(head));
    let rows = from.skip(2).take_while(|line| line.starts_with('|'));
    rows.map(|row| {
        let cells = row.trim_matches('|').split('|').skip(1);
        cells.map(|cell| cell.trim().trim_matches('`')).collect()
    })
    .collect()
}

#[test]
fn the_examples_of_the_charts() {
    let mut seen = Vec::new();
    for cells in charted("| a divide | mode |") {
        let [mode, dividend, divisor, status, trap] = cells[..] else {
            panic!("{cells:?}");
        };
        let number = |cell| u32::from_str_radix(cell, 16).unwrap();
        let [mode, dividend, divisor] = [mode, dividend, divisor].map(number);
        let (mode, divisor) = (mode.try_into().unwrap(), divisor.try_into().unwrap());
        holds(mode, dividend, divisor);
        let got = raw::would_trap(mode, dividend, divisor);
        let told = (got.status.to_string(), u8::from(got.trap).to_string());
        assert_eq!(told, (status.to_string(), trap.to_string()), "{cells:?}");
        seen.push((got.status, got.trap));
    }
    seen.sort();
    seen.dedup();
    assert_eq!(seen, [(0, false), (0, true), (4, true), (5, true)]);
}
