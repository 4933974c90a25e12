//! Packed decimal numbers: held to sums and differences worked out digit by digit, refused one by one and
//! in their order, with what is not written looked at.

use hatchyarn::packed::{self, Refusal, LONGEST};
use hatchyarn::raw;

/// What is lent is filled with it, so that a byte that is written shows.
const UNTOUCHED: u8 = 0xA5;

/// As they are tested.
const REFUSALS: [Refusal; 4] = [
    Refusal::LengthsDiffer,
    Refusal::Length,
    Refusal::Digit,
    Refusal::Room,
];

#[derive(Clone, Copy, Debug)]
enum Function {
    Add,
    Subtract,
}

/// Both functions, without and with a carry or borrow in.
const EACH: [(Function, bool); 4] = [
    (Function::Add, false),
    (Function::Add, true),
    (Function::Subtract, false),
    (Function::Subtract, true),
];

impl Function {
    fn typed(self, x: &[u8], y: &[u8], carry: bool, out: &mut [u8]) -> Result<bool, Refusal> {
        match self {
            Function::Add => packed::add(x, y, carry, out),
            Function::Subtract => packed::subtract(x, y, carry, out),
        }
    }

    fn raw(self, x: &[u8], y: &[u8], carry: bool, out: &mut [u8], carry_out: &mut u8) -> u8 {
        match self {
            Function::Add => raw::packed_add(x, y, carry, out, carry_out),
            Function::Subtract => raw::packed_subtract(x, y, carry, out, carry_out),
        }
    }

    /// The result and the carry or borrow out of it, one digit after the other.
    fn on_paper(self, x: &[u8], y: &[u8], carry: bool) -> (Vec<u8>, bool) {
        let mut carry = i8::from(carry);
        let mut made = Vec::new();
        for (x, y) in digits(x).zip(digits(y)) {
            let digit = match self {
                Function::Add => x + y + carry,
                Function::Subtract => x - y - carry,
            };
            carry = i8::from(!(0..10).contains(&digit));
            made.push(digit.rem_euclid(10) as u8);
        }
        let bytes = made.chunks(2).map(|pair| pair[0] + pair[1] * 16);
        (bytes.collect(), carry == 1)
    }

    /// Both forms give this result and carry, and leave the bytes behind the result.
    fn gives(self, x: &[u8], y: &[u8], carry: bool, result: &[u8], carry_out: bool) {
        let wanted = [result, &[UNTOUCHED; 2]].concat();
        let mut out = vec![UNTOUCHED; wanted.len()];
        let asked = format!("{self:?} {x:02X?} {y:02X?} {carry}");
        assert_eq!(self.typed(x, y, carry, &mut out), Ok(carry_out), "{asked}");
        assert_eq!(out, wanted, "{asked}");
        out.fill(UNTOUCHED);
        let mut written = UNTOUCHED;
        assert_eq!(self.raw(x, y, carry, &mut out, &mut written), 0, "{asked}");
        assert_eq!((out, written), (wanted, u8::from(carry_out)), "{asked}");
    }
}

/// The lowest digit first.
fn digits(bytes: &[u8]) -> impl Iterator<Item = i8> + '_ {
    let halves = bytes.iter().flat_map(|byte| [byte % 16, byte / 16]);
    halves.map(|digit| digit as i8)
}

/// The byte with the two digits of a number below 100.
fn byte(number: u32) -> u8 {
    (number / 10 * 16 + number % 10) as u8
}

/// Both functions, in both forms, refuse for this reason and write nothing.
fn is_refused(x: &[u8], y: &[u8], room: usize, why: Refusal) {
    for (function, carry) in EACH {
        let mut out = vec![UNTOUCHED; room];
        let mut carry_out = UNTOUCHED;
        let asked = format!("{function:?} {x:02X?} {y:02X?}, room {room}");
        let typed = function.typed(x, y, carry, &mut out);
        assert_eq!(typed, Err(why), "{asked}");
        let status = function.raw(x, y, carry, &mut out, &mut carry_out);
        assert_eq!(status, why.status(), "{asked}");
        assert_eq!(out, vec![UNTOUCHED; room], "{asked}");
        assert_eq!(carry_out, UNTOUCHED, "{asked}");
    }
}

#[test]
fn all_pairs_of_one_byte() {
    for (function, carry) in EACH {
        let taken_in = u32::from(carry);
        for x in 0..100 {
            for y in 0..100 {
                let (number, carry_out) = match function {
                    Function::Add => (x + y + taken_in, x + y + taken_in >= 100),
                    Function::Subtract => (100 + x - y - taken_in, x < y + taken_in),
                };
                let result = [byte(number % 100)];
                function.gives(&[byte(x)], &[byte(y)], carry, &result, carry_out);
            }
        }
    }
}

/// Numbers of so many bytes: the least, the largest, 1 and ten that are drawn.
fn numbers(length: usize) -> Vec<Vec<u8>> {
    let mut one = vec![0x00; length];
    one[0] = 0x01;
    let mut made = vec![vec![0x00; length], vec![0x99; length], one];
    let mut state = length as u32;
    let mut draw = || {
        state = state.wrapping_mul(1_664_525).wrapping_add(1_013_904_223);
        byte((state >> 16) % 100)
    };
    made.extend((0..10).map(|_| (0..length).map(|_| draw()).collect()));
    made
}

#[test]
fn every_length_as_on_paper() {
    for length in 1..=LONGEST {
        for x in numbers(length) {
            for y in numbers(length) {
                for (function, carry) in EACH {
                    let (result, carry_out) = function.on_paper(&x, &y, carry);
                    function.gives(&x, &y, carry, &result, carry_out);
                }
            }
        }
    }
}

#[test]
fn subtracting_what_was_added_gives_it_back() {
    let mut sum = [0; LONGEST];
    for x in numbers(LONGEST) {
        for y in numbers(LONGEST) {
            for carry in [false, true] {
                let carry_out = packed::add(&x, &y, carry, &mut sum).unwrap();
                Function::Subtract.gives(&sum, &y, carry, &x, carry_out);
            }
        }
    }
}

#[test]
fn pieces_make_a_longer_number() {
    let length = 3 * LONGEST + 4;
    for x in numbers(length) {
        for y in numbers(length) {
            for (function, carry) in EACH {
                let mut out = vec![UNTOUCHED; length];
                let operands = x.chunks(LONGEST).zip(y.chunks(LONGEST));
                let mut pieces = operands.zip(out.chunks_mut(LONGEST));
                let carry_out = pieces.try_fold(carry, |carry, ((x, y), out)| {
                    function.typed(x, y, carry, out)
                });
                let (result, wanted) = function.on_paper(&x, &y, carry);
                assert_eq!((out, carry_out), (result, Ok(wanted)));
            }
        }
    }
}

#[test]
fn lengths_that_differ_are_refused() {
    let zeros = [0x00; LONGEST + 2];
    for (x, y) in [(0, 1), (1, 0), (1, 2), (3, 2), (31, 32), (32, 33), (33, 34)] {
        is_refused(&zeros[..x], &zeros[..y], 40, Refusal::LengthsDiffer);
    }
}

#[test]
fn no_byte_and_more_than_32_are_refused() {
    for length in [0, LONGEST + 1, LONGEST + 2, 2 * LONGEST, 1000] {
        let zeros = vec![0x00; length];
        is_refused(&zeros, &zeros, length, Refusal::Length);
    }
}

#[test]
fn a_digit_over_9_is_refused_wherever_it_stands() {
    for byte in 0..=0xFF {
        for place in 0..4 {
            let (mut x, y) = ([0x12; 4], [0x34; 4]);
            x[place] = byte;
            if byte / 16 > 9 || byte % 16 > 9 {
                is_refused(&x, &y, 4, Refusal::Digit);
                is_refused(&y, &x, 4, Refusal::Digit);
            } else {
                let mut out = [0; 4];
                assert!(packed::add(&x, &y, false, &mut out).is_ok());
                assert!(packed::subtract(&y, &x, false, &mut out).is_ok());
            }
        }
    }
}

#[test]
fn a_buffer_that_is_too_short_is_refused() {
    for length in 1..=LONGEST {
        let (x, y) = (vec![0x99; length], vec![0x01; length]);
        for room in 0..length {
            is_refused(&x, &y, room, Refusal::Room);
        }
    }
}

/// Each of the refusals, with each set of the later ones beside it.
#[test]
fn the_first_refusal_that_applies_is_given() {
    for faults in 1..16_usize {
        let fault = |place: usize| faults >> place & 1;
        let length = if fault(1) == 1 { LONGEST + 1 } else { 3 };
        let (mut x, y) = (vec![0x12; length], vec![0x34; length + fault(0)]);
        if fault(2) == 1 {
            x[2] = 0xA0;
        }
        let first = REFUSALS[faults.trailing_zeros() as usize];
        is_refused(&x, &y, length - fault(3), first);
    }
}

#[test]
fn a_refusal_says_why() {
    let said = [
        "the operands' lengths differ",
        "the operands are not 1 to 32 bytes long",
        "a digit of an operand is over 9",
        "the buffer for the result is shorter than the operands",
    ];
    for (why, words) in REFUSALS.into_iter().zip(said) {
        assert_eq!(why.to_string(), words);
        assert_eq!(format!("{why:60}|"), format!("{words:60}|"));
    }
}

/// The cells behind the words, of each row of the table of docs/CHARTS.md with this head.
fn charted(head: &str) -> Vec<Vec<&'static str>> {
    let page = include_str!("../../docs/CHARTS.md");
    let from = page.lines().skip_while(|line| !line.starts_with(head));
    let rows = from.skip(2).take_while(|line| line.starts_with('|'));
    rows.map(|row| {
        let cells = row.trim_matches('|').split('|').skip(1);
        cells.map(|cell| cell.trim().trim_matches('`')).collect()
    })
    .collect()
}

/// From '23 81 73', as the page has bytes.
fn bytes(cell: &str) -> Vec<u8> {
    let each = cell.split_whitespace();
    let parsed = each.map(|byte| u8::from_str_radix(byte, 16));
    parsed.collect::<Result<_, _>>().unwrap()
}

fn bit(cell: &str) -> bool {
    match cell {
        "0" => false,
        "1" => true,
        _ => panic!("{cell}"),
    }
}

#[test]
fn the_examples_of_the_charts() {
    let examples = charted("| in words | function |");
    assert!(examples.len() >= 4);
    for cells in examples {
        let [name, x, y, carry, result, out] = cells[..] else {
            panic!("{cells:?}");
        };
        let function = match name {
            "add" => Function::Add,
            "subtract" => Function::Subtract,
            _ => panic!("{name}"),
        };
        let (x, y, result) = (bytes(x), bytes(y), bytes(result));
        function.gives(&x, &y, bit(carry), &result, bit(out));
    }
}

#[test]
fn the_refusals_of_the_charts() {
    let examples = charted("| refused by both functions |");
    assert!(examples.len() >= 4);
    for cells in examples {
        let [x, y, room, status] = cells[..] else {
            panic!("{cells:?}");
        };
        let status = status.parse().unwrap();
        let why = REFUSALS.into_iter().find(|why| why.status() == status);
        is_refused(&bytes(x), &bytes(y), room.parse().unwrap(), why.unwrap());
    }
}
