//! The rule of a refused divide's flags: worked out by hand, and held to MartyPC.

use comparison::asked::Asked;
use comparison::refused_flags::Divide;
use comparison::sides::theirs;
use oracle::draw::Draw;
use oracle::request::{Mode, Operation};

/// All flags but C.
const COMPARED: u16 = 0x08D4;

/// Mode, X, Y, status and flags.
type Row = (u8, u32, u16, u8, u16);

fn hold(rows: &[Row]) {
    for &(mode, x, y, status, flags) in rows {
        let asked = Asked {
            op: 0x11,
            mode,
            flags: !flags & 0x08D5,
            x,
            y,
        };
        let ruled = Divide::from(asked).ruled().expect("it is refused");
        let line = asked.line();
        let told = (ruled.why.status(), ruled.compare.flags());
        assert_eq!(told, (status, flags), "{line}");
        let given = theirs(asked);
        assert_eq!((given.status, given.flags), (status, flags), "{line}");
    }
}

/// Each with its compare.
#[test]
fn refused_at_the_first_compare() {
    hold(&[
        (0x00, 0x0000, 0x00, 6, 0x0044),        // 00 - 00 = 00: Z, P
        (0x00, 0x8300, 0x00, 6, 0x0000),        // 83 - 00 = 83: bit 7 is not S
        (0x00, 0x0100, 0x01, 8, 0x0044),        // 01 - 01 = 00: Z, P
        (0x00, 0x1000, 0x01, 8, 0x0014),        // 10 - 01 = 0F: A, P
        (0x04, 0x8000, 0x01, 8, 0x0810),        // 80 - 01 = 7F: O, A
        (0x04, 0x8000, 0x7F, 8, 0x0810),        // 80 - 7F = 01: O, A
        (0x00, 0xFF00, 0x80, 8, 0x0000),        // FF - 80 = 7F: -1 + 128 is in range
        (0x02, 0x8000, 0x00, 6, 0x0000),        // 80 - 00 = 80: bit 7 is not S
        (0x02, 0xFF00, 0x01, 8, 0x0044),        // 01 - 01 = 00, of the magnitudes
        (0x06, 0x8000, 0x80, 8, 0x0044),        // 80 - 80 = 00, of the magnitudes
        (0x01, 0x8000_0000, 0x0000, 6, 0x0084), // 8000 - 0000 = 8000: S, P
        (0x01, 0x8000_0000, 0x0001, 8, 0x0814), // 8000 - 0001 = 7FFF: O, A, P
        (0x05, 0xFFFF_0000, 0x0001, 8, 0x0080), // FFFF - 0001 = FFFE: S
        (0x03, 0xFFFF_0000, 0x0001, 8, 0x0044), // 0001 - 0001 = 0000, of the magnitudes
        (0x07, 0x7FFF_0000, 0xFFFF, 8, 0x0000), // 7FFF - 0001 = 7FFE, of the magnitudes
    ]);
}

#[test]
fn refused_for_sign_range() {
    hold(&[
        (0x02, 0xFF80, 0x01, 9, 0x0014), // 00 - 01 = FF: A, P; it borrows, and C is clear
        (0x02, 0x00FF, 0x01, 9, 0x0044), // 01 - 01 = 00: Z, P
        (0x02, 0x8001, 0x80, 9, 0x0000), // FF - 80 = 7F: -1 + 128 is in range
        (0x06, 0x7EFF, 0x7F, 9, 0x0814), // FD - 7F = 7E: O, A, P
        (0x06, 0x8101, 0x7F, 9, 0x0814), // the same, of the magnitudes
        (0x02, 0x7EFF, 0x81, 9, 0x0814), // the same, of the magnitudes
        (0x03, 0x0000_8000, 0x0001, 9, 0x0094), // 0000 - 0001 = FFFF: S, A, P; C is clear
        (0x03, 0x0000_FFFF, 0x0001, 9, 0x0044), // 0001 - 0001 = 0000: Z, P
        (0x07, 0x8000_0001, 0x8000, 9, 0x0004), // FFFF - 8000 = 7FFF: P
        (0x07, 0x7FFE_FFFF, 0x7FFF, 9, 0x0810), // FFFD - 7FFF = 7FFE: O, A
    ]);
}

/// An accepted unsigned divide has all flags but C of its last compare, and may end with rounds that
/// make none, which no refused one does. What the last round looks at is worked out without rounds.
#[test]
fn the_last_compare_is_that_of_accepted_unsigned_divides_too() {
    let is_unsigned =
        |operation: &Operation| matches!(operation, Operation::Divide(Mode { signed: false, .. }));
    let operations: Vec<Operation> = Operation::all().filter(is_unsigned).collect();
    let (mut draw, mut without) = (Draw::new(1), 0);
    for _ in 0..200_000 {
        let asked = Asked::from(draw.request(&operations));
        let (divide, given) = (Divide::from(asked), theirs(asked));
        assert_eq!(divide.ruled().is_none(), given.status == 0);
        if given.status == 0 {
            let last = divide.last_compare();
            assert_eq!(last.flags(), given.flags & COMPARED, "{}", asked.line());
            let before = (divide.dividend >> 1) % divide.divisor;
            let shifted = before << 1 | divide.dividend & 1;
            match shifted >> divide.bits {
                0 => assert_eq!(last.left, shifted, "{}", asked.line()),
                _ => without += 1,
            }
        }
    }
    assert!(without > 10_000, "{without}");
}
