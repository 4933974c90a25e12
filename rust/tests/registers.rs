//! Registers that remember their steps: held to the rule written out here, to `ask`, and to the examples of
//! docs/CHARTS.md; every refusal alone and with others, and totals at the end of their range.

use hatchyarn::raw::{self, RegisterRecord, Stepped};
use hatchyarn::registers::{Refusal, Registers};
use hatchyarn::{Adjust, DivideRefusal, Flags, Operation};
use std::error::Error;

const WORD: u8 = 0x01;
const SIGNED: u8 = 0x02;
const REP: u8 = 0x04;

const MULTIPLY: u8 = 0x10;
const DIVIDE: u8 = 0x11;
const AAD: u8 = 0x1A;

const OPS: [u8; 7] = [MULTIPLY, DIVIDE, 0x18, 0x19, AAD, 0x1B, 0x1C];
const FLAGS: u16 = 0x08D5;

/// The order in which the refusals are looked for. The last three rule each other out.
const ORDER: [u8; 7] = [3, 4, 5, 10, 6, 8, 9];

/// An operation as a caller has it, admitted or not, and what it works over.
#[derive(Clone, Copy, Debug)]
struct Call {
    op: u8,
    mode: u8,
    y: u16,
    record: RegisterRecord,
}

/// A fresh record.
fn fresh(ax: u16, dx: u16, flags: u16) -> RegisterRecord {
    RegisterRecord {
        ax,
        dx,
        flags,
        total: 0,
    }
}

impl Call {
    fn with(self, total: u32) -> Call {
        let record = RegisterRecord {
            total,
            ..self.record
        };
        Call { record, ..self }
    }

    fn is_adjust(self) -> bool {
        (0x18..=0x1C).contains(&self.op)
    }

    fn is_word(self) -> bool {
        self.mode & WORD != 0
    }

    /// What the operation reads of the registers.
    fn x(self) -> u32 {
        let (ax, dx) = (u32::from(self.record.ax), u32::from(self.record.dx));
        match (self.op, self.is_word()) {
            (MULTIPLY, false) => ax & 0xFF,
            (DIVIDE, true) => dx << 16 | ax,
            _ => ax,
        }
    }

    fn y_most(self) -> u16 {
        match self.op {
            MULTIPLY | DIVIDE if self.is_word() => 0xFFFF,
            MULTIPLY | DIVIDE | AAD => 0xFF,
            _ => 0,
        }
    }

    /// The first of 3, 4 and 5 that applies.
    fn not_asked(self) -> Option<u8> {
        let faults = [
            !OPS.contains(&self.op),
            self.mode > 0x07 || self.is_adjust() && self.mode != 0,
            self.record.flags & !FLAGS != 0 || self.y > self.y_most(),
        ];
        let mut first = faults.iter().zip(3..).filter(|(fault, _)| **fault);
        first.next().map(|(_, status)| status)
    }

    /// By docs/CHARTS.md: what is told, and what the record is then.
    fn on_paper(self) -> (Stepped, RegisterRecord) {
        let stays = |status| (Stepped { status, steps: 0 }, self.record);
        if let Some(status) = self.not_asked() {
            return stays(status);
        }
        let answer = raw::ask(self.op, self.mode, self.record.flags, self.x(), self.y);
        let (status, steps) = (answer.status, answer.steps);
        let Some(total) = self.record.total.checked_add(steps.into()) else {
            return stays(10);
        };
        let (ax, dx) = match (self.op, self.is_word()) {
            _ if status != 0 => (self.record.ax, self.record.dx),
            (MULTIPLY, true) => (answer.s, answer.r),
            (DIVIDE, true) => (answer.r, answer.s),
            (DIVIDE, false) => (answer.s << 8 | answer.r, self.record.dx),
            _ => (answer.r, self.record.dx),
        };
        let flags = answer.flags;
        let then = RegisterRecord {
            ax,
            dx,
            flags,
            total,
        };
        (Stepped { status, steps }, then)
    }

    /// The same by the typed form, where it can be asked there.
    fn typed(self) -> Option<(Result<u16, Refusal>, RegisterRecord)> {
        let RegisterRecord {
            ax,
            dx,
            flags,
            total,
        } = self.record;
        let (signed, rep) = (self.mode & SIGNED != 0, self.mode & REP != 0);
        let mut registers = Registers::resumed(ax, dx, Flags::new(flags)?, total);
        let told = match (self.not_asked(), self.op, self.is_word()) {
            (Some(_), ..) => return None,
            (_, MULTIPLY, false) => registers.mul8(self.y as u8, signed, rep),
            (_, MULTIPLY, true) => registers.mul16(self.y, signed, rep),
            (_, DIVIDE, false) => registers.div8(self.y as u8, signed, rep),
            (_, DIVIDE, true) => registers.div16(self.y, signed, rep),
            (_, 0x18, _) => registers.aaa(),
            (_, 0x19, _) => registers.aas(),
            (_, 0x1A, _) => registers.aad(self.y as u8),
            (_, 0x1B, _) => registers.daa(),
            _ => registers.das(),
        };
        Some((told, left(&registers)))
    }

    /// What is told and left is that of the rule, by both forms. Returns the status.
    fn holds(self) -> u8 {
        let mut record = self.record;
        let told = raw::registers(self.op, self.mode, self.y, &mut record);
        assert_eq!((told, record), self.on_paper(), "{self:X?}");
        if [3, 4, 5, 10].contains(&told.status) {
            assert_eq!((told.steps, record), (0, self.record), "{self:X?}");
        }
        if let Some((result, then)) = self.typed() {
            assert_eq!(then, record, "{self:X?}");
            let status = result.map_or_else(Refusal::status, |_| 0);
            let steps = result.unwrap_or_else(Refusal::steps);
            assert_eq!(Stepped { status, steps }, told, "{self:X?}");
        }
        told.status
    }
}

/// The typed record as numbers.
fn left(registers: &Registers) -> RegisterRecord {
    RegisterRecord {
        ax: registers.ax,
        dx: registers.dx,
        flags: registers.flags.word(),
        total: registers.total(),
    }
}

/// Numbers that look as if drawn.
struct Draw(u64);

impl Draw {
    fn next(&mut self) -> u32 {
        self.0 = self
            .0
            .wrapping_mul(6_364_136_223_846_793_005)
            .wrapping_add(1_442_695_040_888_963_407);
        (self.0 >> 32) as u32
    }

    /// Any, a small one or one at an end.
    fn word(&mut self) -> u16 {
        let ends = [0, 1, 0x7F, 0x80, 0xFF, 0x100, 0x7FFF, 0x8000, 0xFFFF];
        match self.next() % 4 {
            0 => ends[self.next() as usize % ends.len()],
            1 => (self.next() >> (self.next() % 16)) as u16,
            _ => self.next() as u16,
        }
    }

    /// Half of them so near to the end that some operations pass it and others do not.
    fn total(&mut self) -> u32 {
        match self.next() % 4 {
            0 => u32::MAX - self.next() % 0x100,
            1 => u32::MAX - self.next() % 2,
            _ => self.next() >> (self.next() % 32),
        }
    }

    fn op(&mut self) -> u8 {
        OPS[self.next() as usize % OPS.len()]
    }

    /// An operation that can be asked.
    fn call(&mut self) -> Call {
        let op = self.op();
        let mode = match op {
            MULTIPLY | DIVIDE => (self.next() % 8) as u8,
            _ => 0,
        };
        let flags = self.next() as u16 & FLAGS;
        let mut record = fresh(self.word(), self.word(), flags);
        record.total = self.total();
        // Most 32-bit dividends by a word are too wide.
        if self.next() & 1 == 0 {
            record.dx = [0, 0xFFFF, self.word() >> 8][self.next() as usize % 3];
        }
        let y = self.word();
        let call = Call {
            op,
            mode,
            y,
            record,
        };
        Call {
            y: y & call.y_most(),
            ..call
        }
    }
}

#[test]
fn drawn_operations() {
    let mut draw = Draw(1);
    let mut seen = [0; 11];
    for _ in 0..200_000 {
        seen[usize::from(draw.call().holds())] += 1;
    }
    for status in [0, 6, 8, 9, 10] {
        assert!(seen[status] > 1_000, "{status}: {seen:?}");
    }
    assert_eq!(seen[3..=5], [0; 3]);
}

/// With numbers that are right for few of them.
#[test]
fn every_op_and_mode() {
    let mut draw = Draw(2);
    for op in 0..=0xFF {
        for mode in 0..=0xFF {
            let mut call = draw.call();
            (call.op, call.mode) = (op, mode);
            let status = call.holds();
            assert_eq!(status == 3, !OPS.contains(&op), "{call:X?}");
        }
    }
}

/// Each operation in each of its modes, with a Y that all take.
fn each() -> Vec<Call> {
    let mut made = Vec::new();
    for op in OPS {
        let modes = if op <= DIVIDE { 0..8 } else { 0..1 };
        for mode in modes {
            let call = Call {
                op,
                mode,
                y: 0,
                record: fresh(0x0007, 0x0000, 0),
            };
            let y = call.y_most().min(2);
            made.push(Call { y, ..call });
        }
    }
    assert_eq!(made.len(), 21);
    made
}

#[test]
fn every_y() {
    for call in each() {
        for y in 0..=0xFFFF {
            let status = Call { y, ..call }.holds();
            assert_eq!(status == 5, y > call.y_most(), "{call:X?} {y:04X}");
        }
    }
}

#[test]
fn every_flags_word() {
    for call in each() {
        for flags in 0..=0xFFFF {
            let record = RegisterRecord {
                flags,
                ..call.record
            };
            let status = Call { record, ..call }.holds();
            assert_eq!(status == 5, flags & !FLAGS != 0, "{call:X?} {flags:04X}");
        }
    }
}

/// Divides that the chip refuses, at both widths, and one that it does not.
fn divides() -> Vec<(u8, Call)> {
    let mut made = Vec::new();
    for rep in [0, REP] {
        for (status, mode, y, ax, dx) in [
            (0, 0x00, 0x0002, 0x0007, 0xBEEF),
            (6, 0x00, 0x0000, 0x0007, 0xBEEF),
            (6, 0x03, 0x0000, 0x0007, 0xBEEF),
            (8, 0x00, 0x0001, 0x0100, 0xBEEF),
            (8, 0x01, 0x0002, 0x0000, 0x0002),
            (8, 0x02, 0x0001, 0x7FFF, 0xBEEF),
            (9, 0x02, 0x0001, 0xFF80, 0xBEEF),
            (9, 0x03, 0x0001, 0x8000, 0xFFFF),
        ] {
            let call = Call {
                op: DIVIDE,
                mode: mode | rep,
                y,
                record: fresh(ax, dx, 0x0801),
            };
            made.push((status, call));
        }
    }
    made
}

/// All combinations of faults: the first of them is told, and all but a refused divide leave everything.
#[test]
fn the_order_of_the_refusals() {
    let mut seen = Vec::new();
    for (refused, divide) in divides() {
        for faults in 0..16 {
            let has = |place: u32| faults >> place & 1 == 1;
            let mut call = divide;
            if has(0) {
                call.op = 0x12;
            }
            if has(1) {
                call.mode |= 0x08;
            }
            if has(2) {
                call.record.flags |= 0x0002;
            }
            if has(3) {
                call.record.total = u32::MAX;
            }
            let found = [has(0), has(1), has(2), has(3)];
            let first = found.iter().zip(ORDER).find(|(fault, _)| **fault);
            let wanted = first.map_or(refused, |(_, status)| status);
            assert_eq!(call.holds(), wanted, "{call:X?}");
            seen.push(wanted);
        }
    }
    seen.sort();
    seen.dedup();
    assert_eq!(seen, [0, 3, 4, 5, 6, 8, 9, 10]);
}

/// The faults that the divides above do not have: an op that is listed elsewhere, a mode of an adjust, a Y.
#[test]
fn other_faults_in_their_order() {
    let call = |op, mode, y, flags, total| Call {
        op,
        mode,
        y,
        record: RegisterRecord {
            total,
            ..fresh(0x00FA, 0xBEEF, flags)
        },
    };
    for op in 0x00..=0x0C {
        for mode in [0x00, 0x01, 0x08, 0xFF] {
            assert_eq!(call(op, mode, 0xFFFF, 0xFFFF, u32::MAX).holds(), 3);
            assert_eq!(call(op, mode, 0, 0, 0).holds(), 3);
        }
    }
    for op in 0x18..=0x1C {
        for mode in 0x01..=0xFF {
            assert_eq!(call(op, mode, 0xFFFF, 0xFFFF, u32::MAX).holds(), 4);
            assert_eq!(call(op, mode, 0, 0, 0).holds(), 4);
        }
        assert_eq!(call(op, 0x00, 0x0100, 0, u32::MAX).holds(), 5);
        assert_eq!(call(op, 0x00, 0, 0x1000, u32::MAX).holds(), 5);
        let full = if op >= 0x1B { 0 } else { 10 };
        assert_eq!(call(op, 0x00, 0, 0, u32::MAX).holds(), full);
    }
}

/// AX and DX as they were, whatever the flags were; the flags of the refusal, and its steps in the total.
#[test]
fn what_a_refused_divide_leaves() {
    for (refused, divide) in divides() {
        for before in [0, 1, 0x0801, FLAGS] {
            let mut call = divide.with(1000);
            call.record.flags = before;
            assert_eq!(call.holds(), refused);
            if refused == 0 {
                continue;
            }
            let mut record = call.record;
            let told = raw::registers(DIVIDE, call.mode, call.y, &mut record);
            let asked = raw::ask(DIVIDE, call.mode, before, call.x(), call.y);
            assert!(told.steps > 0);
            let wanted = RegisterRecord {
                flags: asked.flags,
                total: 1000 + u32::from(asked.steps),
                ..call.record
            };
            assert_eq!(record, wanted, "{call:X?}");
        }
    }
}

/// The last total with which an operation is done leads to the end of the range exactly. One more is 10, but for
/// an operation of 0 steps.
#[test]
fn the_end_of_the_total() {
    let mut draw = Draw(3);
    let drawn = (0..20_000).map(|_| draw.call().with(0));
    let calls = each()
        .into_iter()
        .chain(divides().into_iter().map(|(_, call)| call));
    for call in calls.chain(drawn) {
        let (told, _) = call.on_paper();
        let last = u32::MAX - u32::from(told.steps);
        assert_eq!(call.with(last).holds(), told.status);
        assert_eq!(call.with(last).on_paper().1.total, u32::MAX);
        assert_eq!(told.steps == 0, call.op >= 0x1B, "{call:X?}");
        for over in 1..=u32::from(told.steps) {
            assert_eq!(call.with(last + over).holds(), 10, "{call:X?}");
        }
    }
}

/// The operation that a record and a call come to, where nothing is read from registers.
fn by_value(call: Call) -> Operation {
    let (signed, rep) = (call.mode & SIGNED != 0, call.mode & REP != 0);
    let (ax, byte, y) = (call.record.ax, call.y as u8, call.y);
    match (call.op, call.is_word()) {
        (MULTIPLY, false) => Operation::Multiply8 {
            x: ax as u8,
            y: byte,
            signed,
            rep,
        },
        (MULTIPLY, true) => Operation::Multiply16 {
            x: ax,
            y,
            signed,
            rep,
        },
        (DIVIDE, false) => Operation::Divide8 {
            dividend: ax,
            divisor: byte,
            signed,
            rep,
        },
        (DIVIDE, true) => Operation::Divide16 {
            dividend: call.x(),
            divisor: y,
            signed,
            rep,
        },
        (0x18, _) => Operation::Adjust(Adjust::Aaa, ax),
        (0x19, _) => Operation::Adjust(Adjust::Aas, ax),
        (0x1B, _) => Operation::Adjust(Adjust::Daa, ax),
        (0x1C, _) => Operation::Adjust(Adjust::Das, ax),
        _ => Operation::Aad { ax, byte },
    }
}

/// Sessions of drawn operations, with AX, DX and flags stored in between as often as not: the total is always the
/// sum of the steps told, and the steps and the flags are those of the operation by value.
#[test]
fn the_total_is_the_sum_of_the_steps() {
    let mut draw = Draw(4);
    let mut registers = Registers::new(0, 0, Flags::NONE);
    let mut sum = 0;
    for turn in 0..50_000 {
        let mut call = draw.call();
        if turn % 2 == 0 {
            registers.ax = call.record.ax;
            registers.dx = call.record.dx;
            registers.flags = Flags::new(call.record.flags).unwrap();
        }
        assert_eq!(registers.total(), sum);
        call.record = left(&registers);
        let (told, then) = call.typed().unwrap();
        let (steps, flags) = match by_value(call).ask(registers.flags) {
            Ok(answer) => (answer.steps, answer.flags),
            Err(hatchyarn::Refusal::Divide { flags, steps, .. }) => (steps, flags),
            Err(other) => panic!("{other}"),
        };
        assert_eq!(told.unwrap_or_else(Refusal::steps), steps);
        sum += u32::from(steps);
        let flags = Flags::new(then.flags).filter(|now| *now == flags).unwrap();
        registers = Registers::resumed(then.ax, then.dx, flags, then.total);
    }
    assert_eq!(registers.total(), sum);
    assert!(sum > 1_000_000);
}

#[test]
fn a_fresh_record_has_a_total_of_0() {
    let mut registers = Registers::new(0x1234, 0x5678, Flags::ALL);
    let wanted = fresh(0x1234, 0x5678, FLAGS);
    assert_eq!(left(&registers), wanted);
    (registers.ax, registers.dx, registers.flags) = (1, 2, Flags::CARRY);
    assert_eq!(left(&registers), fresh(1, 2, 0x0001));
    let saved = Registers::resumed(1, 2, Flags::CARRY, 77);
    assert_eq!(saved.total(), 77);
    assert_ne!(saved, registers);
    assert_eq!(Registers::resumed(1, 2, Flags::CARRY, 0), registers);
}

#[test]
fn refusals_in_words() {
    let divide = |why| Refusal::Divide { why, steps: 19 };
    let words = [
        (
            divide(DivideRefusal::ZeroDivisor),
            6,
            "the divide is refused: the divisor is 0",
        ),
        (
            divide(DivideRefusal::TooWide),
            8,
            "the divide is refused: the quotient needs more bits than the divisor has",
        ),
        (
            divide(DivideRefusal::SignRange),
            9,
            "the divide is refused: the quotient does not fit with its sign",
        ),
        (
            Refusal::TotalFull,
            10,
            "the total of steps is full: note it, start a fresh record, and do the operation again; nothing was changed",
        ),
    ];
    for (refusal, status, told) in words {
        assert_eq!(refusal.status(), status);
        assert_eq!(refusal.steps(), if status == 10 { 0 } else { 19 });
        let error: Box<dyn Error> = refusal.into();
        assert_eq!(error.to_string(), told);
        assert_eq!(format!("{refusal:>120}"), format!("{told:>120}"));
    }
}

/// After 10 the operation is done over a fresh record as it would have been, and the noted total and the new one
/// are the sum.
#[test]
fn a_full_total_is_noted_and_begun_again() {
    for call in each()
        .into_iter()
        .chain(divides().into_iter().map(|(_, call)| call))
    {
        let (told, then) = call.on_paper();
        if told.steps == 0 {
            continue;
        }
        let (refusal, record) = call.with(u32::MAX - 3).typed().unwrap();
        assert_eq!(refusal, Err(Refusal::TotalFull));
        let noted = record.total;
        let again = Call {
            record: RegisterRecord { total: 0, ..record },
            ..call
        };
        let (result, after) = again.typed().unwrap();
        assert_eq!(result.unwrap_or_else(Refusal::steps), told.steps);
        assert_eq!((noted, after), (u32::MAX - 3, then));
    }
}

/// The cells behind the words, of each row of the table of docs/CHARTS.md with this head.
fn charted(head: &str) -> Vec<Vec<&'static str>> {
    let page = include_str!("../../docs/CHARTS.md");
    let from = page.lines().skip_while(|line| !line.starts_with(head));
    let rows = from.skip(2).take_while(|line| line.starts_with('|'));
    rows.map(|row| {
        let cells = row.trim_matches('|').split('|').skip(1);
        cells.map(|cell| cell.trim().trim_matches('`')).collect()
    })
    .collect()
}

/// 'AX DX flags' and the total.
fn record(cell: &str, total: &str) -> RegisterRecord {
    let words: Vec<u16> = cell
        .split(' ')
        .map(|word| u16::from_str_radix(word, 16).unwrap())
        .collect();
    let [ax, dx, flags] = words[..] else {
        panic!("{cell}");
    };
    let total = total.parse().unwrap();
    RegisterRecord {
        ax,
        dx,
        flags,
        total,
    }
}

/// A row of either table: the call, and what is told and left.
fn example(cells: &[&str]) -> (Call, Stepped, RegisterRecord) {
    let [op, mode, y, before, total, status, steps, after, total_after] = cells[..] else {
        panic!("{cells:?}");
    };
    let hexadecimal = |cell| u16::from_str_radix(cell, 16).unwrap();
    let call = Call {
        op: hexadecimal(op).try_into().unwrap(),
        mode: hexadecimal(mode).try_into().unwrap(),
        y: hexadecimal(y),
        record: record(before, total),
    };
    let told = Stepped {
        status: status.parse().unwrap(),
        steps: steps.parse().unwrap(),
    };
    (call, told, record(after, total_after))
}

#[test]
fn the_examples_of_the_charts() {
    let (session, alone) = (charted("| in a session |"), charted("| an operation |"));
    let mut seen = Vec::new();
    for cells in session.iter().chain(&alone) {
        let (call, told, then) = example(cells);
        call.holds();
        let mut record = call.record;
        let got = raw::registers(call.op, call.mode, call.y, &mut record);
        assert_eq!((got, record), (told, then), "{cells:?}");
        seen.push(told.status);
    }
    seen.sort();
    seen.dedup();
    assert_eq!(seen, [0, 3, 4, 5, 6, 8, 9, 10]);

    // The session is one: it begins fresh, and each operation goes on from the total of the one before.
    let mut total = 0;
    let mut ops = Vec::new();
    for cells in &session {
        let (call, told, then) = example(cells);
        assert_eq!(call.record.total, total, "{cells:?}");
        assert_eq!(then.total, total + u32::from(told.steps), "{cells:?}");
        total = then.total;
        ops.push(call.op);
    }
    assert!(OPS.iter().all(|op| ops.contains(op)));
}
