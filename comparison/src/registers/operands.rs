//! Calls and records that are worth holding: drawn, laid out from a request, and such as are refused.

use super::call::{Call, Record};
use super::charts;
use super::reference::MOST;
use oracle::draw::Draw;
use oracle::request::{Operation, Request, Width, ALL_FLAGS};

/// The multiplies, the divides and the adjusts, each with every mode.
pub fn operations() -> Vec<Operation> {
    let is_alu = |operation: &Operation| matches!(operation, Operation::Alu(..));
    Operation::all()
        .filter(|operation| !is_alu(operation))
        .collect()
}

/// Any registers, any flags that there are, and a total that is small as often as large.
pub fn any_record(draw: &mut Draw) -> Record {
    Record {
        ax: draw.bits() as u16,
        dx: draw.bits() as u16,
        flags: draw.bits() as u16 & ALL_FLAGS,
        total: draw.bits() as u32 >> draw.below(32),
    }
}

/// A drawn call of an operation, and a record that it is done over, or refused as a divide is.
pub fn drawn(draw: &mut Draw, operation: Operation) -> (Call, Record) {
    let request = draw.request(&[operation]);
    laid_out(draw, request)
}

/// A request over a record: the flags and X stand where the operation reads them, and all else is drawn.
pub fn laid_out(draw: &mut Draw, request: Request) -> (Call, Record) {
    let (op, mode) = request.operation().code();
    let y = request.y();
    let mut record = Record {
        flags: request.flags(),
        ..any_record(draw)
    };
    record.take(request);
    (Call { op, mode, y }, record)
}

impl Record {
    /// Stores X where the operation reads it, and leaves all else.
    pub fn take(&mut self, request: Request) {
        let x = request.x();
        self.ax = match request.operation() {
            Operation::Multiply(mode) if mode.width == Width::Byte => {
                self.ax & 0xFF00 | x as u16 & 0xFF
            }
            _ => x as u16,
        };
        match request.operation() {
            Operation::Divide(mode) if mode.width == Width::Word => self.dx = (x >> 16) as u16,
            _ => {}
        }
    }
}

/// The totals at which it turns whether an admitted call is done: its steps below the largest, one beside that
/// on either side, and the largest itself. The last is one from which its steps carry into some upper bit.
pub fn at_turns(draw: &mut Draw, call: Call, record: Record) -> [u32; 5] {
    let steps = u64::from(charts::numbers(call.asked(record)).steps);
    let last = MOST - steps;
    let carries = (1 << (8 + draw.below(24))) - steps;
    [last - 1, last, (last + 1).min(MOST), MOST, carries].map(|total| total as u32)
}

/// A total at most so far from the largest.
pub fn nearly_full(draw: &mut Draw, most: u32) -> u32 {
    u32::MAX - draw.below(most + 1)
}

/// A call and a record of which nothing is sure: each refusal is met alone and beside every other.
pub fn wild(draw: &mut Draw) -> (Call, Record) {
    let operations = [0x10, 0x11, 0x11, 0x11, 0x18, 0x19, 0x1A, 0x1B, 0x1C];
    let op = match draw.below(4) {
        0 => draw.bits() as u8,
        _ => draw.pick(&operations),
    };
    let mode = draw.bits() as u8 & draw.pick(&[0x00, 0x07, 0x07, 0xFF]);
    (wild_y(draw, op, mode), wild_record(draw))
}

/// The op and the mode with a Y that is 0, small, or any.
pub fn wild_y(draw: &mut Draw, op: u8, mode: u8) -> Call {
    let y = draw.bits() as u16 & draw.pick(&[0, 0xF, 0xFF, 0x1FF, 0xFFFF]);
    Call { op, mode, y }
}

/// Registers that are small or not, flags of which half are any word, and half of the totals full or nearly so.
pub fn wild_record(draw: &mut Draw) -> Record {
    let mut narrow = || draw.bits() as u16 & draw.pick(&[0xF, 0xFF, 0xFFFF]);
    let [ax, dx] = [narrow(), narrow()];
    Record {
        ax,
        dx,
        flags: draw.bits() as u16 & draw.pick(&[ALL_FLAGS, 0xFFFF]),
        total: match draw.below(4) {
            0 => u32::MAX,
            1 => nearly_full(draw, 0xFF),
            _ => draw.bits() as u32,
        },
    }
}
