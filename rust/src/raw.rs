//! The ten functions as the static library has them.
//!
//! They are safe to call with anything: nothing is required of a caller, and every request gets an
//! answer. Use them for requests that come from elsewhere as numbers or as text; a program that
//! writes its own requests is better served by [`Operation`](crate::Operation), one that explains the steps of
//! its divides by [`Roads`](crate::Roads), one that keeps a log of steps by [`registers`](crate::registers), one
//! that adds packed decimal numbers by [`packed`](crate::packed), and one that reads answer lines back by
//! [`record`](crate::record).

/// What [`ask`] answers.
#[derive(Clone, Copy, Debug, PartialEq, Eq, Hash)]
pub struct Numbers {
    /// 0 where the request was answered; 3, 4 or 5 where it is no request of the chip; 6, 8 or 9 where
    /// the chip refuses the divide.
    pub status: u8,
    pub flags: u16,
    pub steps: u16,
    pub r: u16,
    pub s: u16,
}

/// What [`would_trap`] answers. Whoever looks at `trap` alone takes a divide that cannot be asked for
/// closed, and never for open.
#[derive(Clone, Copy, Debug, PartialEq, Eq, Hash)]
pub struct WouldTrap {
    /// 0 where the divide can be asked; 4 where the mode is wrong, or else 5 where an operand is too large.
    pub status: u8,
    /// Whether the divide would trap; true after 4 and 5.
    pub trap: bool,
}

/// What [`roads`] answers. Both tallies are 0 after 4, 5, 6, 8 and 9; a quotient of 0 has no ones either, so
/// that the status alone tells of a refusal.
#[derive(Clone, Copy, Debug, PartialEq, Eq, Hash)]
pub struct Tallies {
    /// 0 where the divide is done; 4 where the mode is wrong, or else 5 where an operand is too large; 6, 8 or 9
    /// where the chip refuses the divide.
    pub status: u8,
    /// How many ones of the quotient came by a bit shifted out.
    pub shifted_out: u16,
    /// How many came by no borrow.
    pub no_borrow: u16,
}

/// What [`registers`](registers()) works over. A fresh one has a total of 0, and any other numbers. Between two
/// operations a program may store any `ax`, `dx` and `flags`, which leaves the total.
#[derive(Clone, Copy, Debug, PartialEq, Eq, Hash)]
pub struct RegisterRecord {
    pub ax: u16,
    pub dx: u16,
    pub flags: u16,
    /// The sum of the steps of all operations since it was 0.
    pub total: u32,
}

/// What [`registers`](registers()) answers.
#[derive(Clone, Copy, Debug, PartialEq, Eq, Hash)]
pub struct Stepped {
    /// 0 where the operation was done; 3, 4 or 5 where it cannot be asked, or 10 where the total is full, and
    /// nothing was changed; 6, 8 or 9 where the chip refuses the divide.
    pub status: u8,
    /// The steps, which went into the total. They are 0 after 3, 4, 5 and 10.
    pub steps: u16,
}

/// What [`run`] did.
#[derive(Clone, Copy, Debug, PartialEq, Eq, Hash)]
pub struct Ran {
    /// How many lines were answered, at 19 bytes each.
    pub lines: usize,
    /// How many bytes of the text they are, line feeds included.
    pub used: usize,
}

mod linked {
    // As in include/hatchyarn.h, and in crates/embed, where the contracts stand.
    extern "C" {
        pub fn hatchyarn_ask(op: u8, mode: u8, flags: u16, x: u32, y: u16, answer: *mut u16) -> u8;
        pub fn hatchyarn_would_trap(mode: u8, dividend: u32, divisor: u16, trap: *mut u8) -> u8;
        pub fn hatchyarn_roads(mode: u8, dividend: u32, divisor: u16, roads: *mut u16) -> u8;
        pub fn hatchyarn_registers(
            op: u8,
            mode: u8,
            y: u16,
            ax: *mut u16,
            dx: *mut u16,
            flags: *mut u16,
            total: *mut u32,
            steps: *mut u16,
        ) -> u8;
        pub fn hatchyarn_line(line: *const u8, length: usize, out: *mut u8, room: usize) -> u8;
        pub fn hatchyarn_run(
            text: *const u8,
            length: usize,
            out: *mut u8,
            room: usize,
            at_end: bool,
            used: *mut usize,
        ) -> usize;
        pub fn hatchyarn_packed_add(
            x: *const u8,
            x_length: usize,
            y: *const u8,
            y_length: usize,
            carry: bool,
            out: *mut u8,
            room: usize,
            carry_out: *mut u8,
        ) -> u8;
        pub fn hatchyarn_packed_subtract(
            x: *const u8,
            x_length: usize,
            y: *const u8,
            y_length: usize,
            borrow: bool,
            out: *mut u8,
            room: usize,
            borrow_out: *mut u8,
        ) -> u8;
        pub fn hatchyarn_read_answer(line: *const u8, length: usize, record: *mut u16) -> u8;
        pub fn hatchyarn_next_answer(
            text: *const u8,
            length: usize,
            place: *mut usize,
            record: *mut u16,
            start: *mut usize,
        ) -> u8;
    }
}

/// Answers a request given as numbers. Statuses 1, 2 and 7 are those of lines, and none is given here.
pub fn ask(op: u8, mode: u8, flags: u16, x: u32, y: u16) -> Numbers {
    let mut answer = [0; 4];
    // SAFETY: the function writes four numbers, and there is room for four.
    let status = unsafe { linked::hatchyarn_ask(op, mode, flags, x, y, answer.as_mut_ptr()) };
    let [flags, steps, r, s] = answer;
    Numbers {
        status,
        flags,
        steps,
        r,
        s,
    }
}

/// Whether a divide would trap: whether [`ask`], given op `0x11`, the same numbers and any
/// [`Flags`](crate::Flags), has another status than 0. No quotient is worked out. REP, `0x04` of the mode,
/// changes nothing.
///
/// The status is 4 where the mode has a bit above `0x04`; else 5 where at 8 bits the dividend is over `0xFFFF`
/// or the divisor over `0xFF`; else 0. After 4 and 5 `trap` is true.
pub fn would_trap(mode: u8, dividend: u32, divisor: u16) -> WouldTrap {
    // Closed, until the function says otherwise.
    let mut trap = 1;
    // SAFETY: the function writes one byte, and there is room for one.
    let status = unsafe { linked::hatchyarn_would_trap(mode, dividend, divisor, &mut trap) };
    let trap = trap != 0;
    WouldTrap { status, trap }
}

/// Which road each one of a divide's quotient came by: how many by a bit shifted out, and how many by no borrow.
/// [`Roads`](crate::Roads) says what that means. No flags are taken, since a divide does not see them. REP, `0x04`
/// of the mode, changes nothing.
///
/// The status is 4 where the mode has a bit above `0x04`; else 5 where at 8 bits the dividend is over `0xFFFF`
/// or the divisor over `0xFF`; else 6, 8 or 9 where the chip refuses the divide; else 0. It is that of [`ask`], given
/// op `0x11`, the same numbers and any [`Flags`](crate::Flags). After 4, 5, 6, 8 and 9 both tallies are 0.
pub fn roads(mode: u8, dividend: u32, divisor: u16) -> Tallies {
    let mut roads = [0; 2];
    // SAFETY: the function writes two numbers, and there is room for two.
    let status = unsafe { linked::hatchyarn_roads(mode, dividend, divisor, roads.as_mut_ptr()) };
    let [shifted_out, no_borrow] = roads;
    Tallies {
        status,
        shifted_out,
        no_borrow,
    }
}

/// Does an operation over registers that remember their steps. It reads X from them and is given Y; what is
/// stored, and the steps, are what [`ask`] gives for the same numbers.
///
/// | op | X | Y | stored beside the flags and the total |
/// |---|---|---|---|
/// | `0x10` multiply, 8 bits | AL | the factor | the product in AX |
/// | `0x10` multiply, 16 bits | AX | the factor | its upper half in DX, its lower half in AX |
/// | `0x11` divide, 8 bits | AX | the divisor | the quotient in AL, the remainder in AH |
/// | `0x11` divide, 16 bits | DX * 65536 + AX | the divisor | the quotient in AX, the remainder in DX |
/// | `0x1A` AAD | AX | its byte | AX |
/// | `0x18` AAA, `0x19` AAS, `0x1B` DAA, `0x1C` DAS | AX | 0 | AX |
///
/// The status is 3 where the op is none of these; else 4 where the mode has a bit above `0x04`, or is not 0 for
/// `0x18` to `0x1C`; else 5 where a bit of the flags word is no flag, or `y` is too large; else 10 where the total
/// would pass 4,294,967,295; else 6, 8 or 9 where the chip refuses the divide; else 0. After 3, 4, 5 and 10 the
/// record is as it was. After 6, 8 and 9 AX and DX are as they were, the flags are those of the refusal, and the
/// steps are in the total.
pub fn registers(op: u8, mode: u8, y: u16, record: &mut RegisterRecord) -> Stepped {
    let RegisterRecord {
        ax,
        dx,
        flags,
        total,
    } = record;
    let mut steps = 0;
    // SAFETY: the function reads and writes four numbers and writes a fifth, and the five are apart.
    let status =
        unsafe { linked::hatchyarn_registers(op, mode, y, ax, dx, flags, total, &mut steps) };
    Stepped { status, steps }
}

/// Answers one line, given without its line feed. The answer's 19 bytes go to the front of `out`.
/// Where `out` is shorter, the status is 7 and nothing is written.
pub fn line(line: &[u8], out: &mut [u8]) -> u8 {
    // SAFETY: each pointer goes with the length of its slice, and the two slices are apart.
    unsafe { linked::hatchyarn_line(line.as_ptr(), line.len(), out.as_mut_ptr(), out.len()) }
}

/// Answers as many lines of `text` as `out` has room for. A last line without a line feed is a line
/// where `at_end` says that no more text follows, and waits otherwise.
///
/// No line is answered and no byte used where `out` has no room for an answer, where `text` is only the
/// start of a line that waits, and where `text` is empty. [`answer_all`](crate::answer_all) answers a
/// text of any length.
pub fn run(text: &[u8], out: &mut [u8], at_end: bool) -> Ran {
    let mut used = 0;
    // SAFETY: each pointer goes with the length of its slice, and all that is written is apart.
    let lines = unsafe {
        linked::hatchyarn_run(
            text.as_ptr(),
            text.len(),
            out.as_mut_ptr(),
            out.len(),
            at_end,
            &mut used,
        )
    };
    Ran { lines, used }
}

/// Adds packed numbers of one length, and the carry. The sum's bytes go to the front of `out`, and the
/// carry out of it, 0 or 1, to `carry_out`. The status is 0; where it is one of 20 to 23, those of
/// [`packed::Refusal`](crate::packed::Refusal), nothing is written.
pub fn packed_add(x: &[u8], y: &[u8], carry: bool, out: &mut [u8], carry_out: &mut u8) -> u8 {
    // SAFETY: each pointer goes with the length of its slice, and all that is written is apart.
    unsafe {
        linked::hatchyarn_packed_add(
            x.as_ptr(),
            x.len(),
            y.as_ptr(),
            y.len(),
            carry,
            out.as_mut_ptr(),
            out.len(),
            carry_out,
        )
    }
}

/// Subtracts `y` and the borrow from `x`, packed numbers of one length. What is written, and where, is as
/// of [`packed_add`], with the borrow out of the difference in place of the carry.
pub fn packed_subtract(
    x: &[u8],
    y: &[u8],
    borrow: bool,
    out: &mut [u8],
    borrow_out: &mut u8,
) -> u8 {
    // SAFETY: each pointer goes with the length of its slice, and all that is written is apart.
    unsafe {
        linked::hatchyarn_packed_subtract(
            x.as_ptr(),
            x.len(),
            y.as_ptr(),
            y.len(),
            borrow,
            out.as_mut_ptr(),
            out.len(),
            borrow_out,
        )
    }
}

/// Reads one answer line, given without its line feed: status, flags, steps, R and S. The status is 0;
/// where it is one of 30 to 34, those of [`record::Reason`](crate::record::Reason), nothing is written.
pub fn read_answer(line: &[u8], record: &mut [u16; 5]) -> u8 {
    // SAFETY: the pointer goes with the length of its slice; five numbers are written, and there is room
    // for five.
    unsafe { linked::hatchyarn_read_answer(line.as_ptr(), line.len(), record.as_mut_ptr()) }
}

/// Reads the next answer line of `text`, which starts at `place`. After 0, with its five numbers in
/// `record`, and after a refusal, 30 to 34, `start` is where the line starts and `place` is past it and its
/// line feed. After 255 there was no line left, and all is as it was.
pub fn next_answer(text: &[u8], place: &mut usize, record: &mut [u16; 5], start: &mut usize) -> u8 {
    // SAFETY: the pointer goes with the length of its slice, and all that is written is apart.
    unsafe {
        linked::hatchyarn_next_answer(text.as_ptr(), text.len(), place, record.as_mut_ptr(), start)
    }
}
