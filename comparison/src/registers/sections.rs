//! The sections over a register record in which every call is admitted.

use super::call::{Call, Record, AAD, MULTIPLY};
use super::held::hold;
use super::operands::{any_record, drawn, laid_out, operations};
use crate::form::Form;
use crate::section::Section;
use crate::trap::call::DIVIDE;
use oracle::draw::Draw;
use oracle::edges;
use oracle::request::Operation;
use std::convert::Infallible;

/// AAA, AAS, DAA, DAS: those adjusts that take the record alone.
const ADJUSTS: [u8; 4] = [0x18, 0x19, 0x1B, 0x1C];

/// C and A, the two flags that they read.
const READ_FLAGS: [u16; 4] = [0x0000, 0x0001, 0x0010, 0x0011];

/// Unsigned, signed, and both with REP.
const BYTE_MODES: [u8; 4] = [0x00, 0x02, 0x04, 0x06];

/// Any record with this AX.
fn with_ax(draw: &mut Draw, ah: u32, al: u32) -> Record {
    Record {
        ax: (ah << 8 | al) as u16,
        ..any_record(draw)
    }
}

/// A part is a mode and an AH.
pub fn divides(form: Form) -> Section {
    Section::of_calls("registers, 8-bit divides", 4 * 256, move |part, tally| {
        let mut draw = form.draw(34, part);
        let (mode, ah) = (BYTE_MODES[(part / 256) as usize], (part % 256) as u32);
        let als = form.bytes(&mut draw);
        for &al in &als[..form.choose(256, 4)] {
            for y in 0x00..=0xFF {
                let op = DIVIDE;
                let record = with_ax(&mut draw, ah, al);
                hold(tally, &mut draw, Call { op, mode, y }, record);
            }
        }
    })
}

/// A part is a mode and an AL. AH, which is not read, is drawn.
pub fn multiplies(form: Form) -> Section {
    Section::of_calls(
        "registers, 8-bit multiplies",
        4 * 256,
        move |part, tally| {
            let mut draw = form.draw(35, part);
            let (mode, al) = (BYTE_MODES[(part / 256) as usize], (part % 256) as u32);
            for y in (0x00..=0xFF).cycle().take(form.choose(16 * 256, 256)) {
                let (op, ah) = (MULTIPLY, draw.below(256));
                let record = with_ax(&mut draw, ah, al);
                hold(tally, &mut draw, Call { op, mode, y }, record);
            }
        },
    )
}

/// A part is an op and an AL.
pub fn adjusts(form: Form) -> Section {
    let name = "registers, AAA, AAS, DAA, DAS";
    Section::of_calls(name, 4 * 256, move |part, tally| {
        let mut draw = form.draw(36, part);
        let (op, al) = (ADJUSTS[(part / 256) as usize], (part % 256) as u32);
        let (mode, y) = (0, 0);
        for ah in form.bytes(&mut draw) {
            for read in READ_FLAGS {
                let mut record = with_ax(&mut draw, ah, al);
                record.flags = record.flags & !0x0011 | read;
                hold(tally, &mut draw, Call { op, mode, y }, record);
            }
        }
    })
}

/// A part is AAD's byte.
pub fn aad(form: Form) -> Section {
    Section::of_calls("registers, AAD", 256, move |part, tally| {
        let mut draw = form.draw(37, part);
        let (op, mode, y) = (AAD, 0, part as u16);
        for ax in axs(form, &mut draw) {
            let record = with_ax(&mut draw, 0, ax);
            hold(tally, &mut draw, Call { op, mode, y }, record);
        }
    })
}

/// All; in the quick form some that are drawn.
fn axs(form: Form, draw: &mut Draw) -> Vec<u32> {
    if form.full {
        return (0x0000..=0xFFFF).collect();
    }
    (0..512).map(|_| draw.below(0x1_0000)).collect()
}

/// A part is an operation. Those of 8 bits are among them: the quick form has not all of 8 bits.
pub fn at_edges(form: Form) -> Section {
    let operations = operations();
    let parts = operations.len() as u64;
    Section::of_calls("registers, edges", parts, move |part, tally| {
        let mut draw = form.draw(38, part);
        let mut take = |request| {
            let (call, record) = laid_out(&mut draw, request);
            hold(tally, &mut draw, call, record);
            Ok::<(), Infallible>(())
        };
        let Ok(()) = edges::each(operations[part as usize], &mut take);
    })
}

/// A part is an operation of 16 bits and fifty thousand draws of it.
pub fn words(form: Form) -> Section {
    let is_word = |operation: &Operation| operation.code().1 & 1 != 0;
    let operations: Vec<Operation> = operations().into_iter().filter(is_word).collect();
    let parts = operations.len() as u64 * form.choose(50, 1);
    Section::of_calls("registers, 16 bits, drawn", parts, move |part, tally| {
        let mut draw = form.draw(39, part);
        let operation = operations[part as usize % operations.len()];
        for _ in 0..50_000 {
            let (call, record) = drawn(&mut draw, operation);
            hold(tally, &mut draw, call, record);
        }
    })
}
