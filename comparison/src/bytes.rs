//! The sections at 8 bits, where everything can be asked.

use crate::asked::Asked;
use crate::form::Form;
use crate::section::Section;
use crate::tally::Tally;

const NEG: u8 = 0x04;
const MULTIPLY: u8 = 0x10;
const DIVIDE: u8 = 0x11;
const AAD: u8 = 0x1A;

/// AAA, AAS, DAA, DAS: those adjusts that take AX alone.
const ADJUSTS: [u8; 4] = [0x18, 0x19, 0x1B, 0x1C];

/// Unsigned, signed, and both with REP.
const BYTE_MODES: [u8; 4] = [0x00, 0x02, 0x04, 0x06];

fn each(tally: &mut Tally, op_mode: (u8, u8), x: u32, y: u16, sets: &[u16]) {
    let (op, mode) = op_mode;
    for &flags in sets {
        tally.hold(Asked {
            op,
            mode,
            flags,
            x,
            y,
        });
    }
}

/// A part is an op and an X.
pub fn alu(form: Form) -> Section {
    Section::of_requests("8 bits, ADD to SHL with A", 13 * 256, move |part, tally| {
        let sets = form.flag_sets(&mut form.draw(1, part));
        let (op, x) = ((part / 256) as u8, (part % 256) as u32);
        for y in 0x00..=if op == NEG { 0x00 } else { 0xFF } {
            each(tally, (op, 0), x, y, &sets);
        }
    })
}

/// A part is a mode and an X.
pub fn multiply(form: Form) -> Section {
    Section::of_requests("8 bits, multiply", 4 * 256, move |part, tally| {
        let sets = form.flag_sets(&mut form.draw(2, part));
        let (mode, x) = (BYTE_MODES[(part / 256) as usize], (part % 256) as u32);
        for y in 0x00..=0xFF {
            each(tally, (MULTIPLY, mode), x, y, &sets);
        }
    })
}

/// A part is a mode and the upper half of the dividend.
pub fn divide(form: Form) -> Section {
    Section::of_requests("8 bits, divide", 4 * 256, move |part, tally| {
        let mut draw = form.draw(3, part);
        let sets = form.flag_sets(&mut draw);
        let (mode, upper) = (BYTE_MODES[(part / 256) as usize], (part % 256) as u32);
        for lower in form.bytes(&mut draw) {
            for y in 0x00..=0xFF {
                each(tally, (DIVIDE, mode), upper << 8 | lower, y, &sets);
            }
        }
    })
}

/// A part is an op and an AH.
pub fn adjusts(form: Form) -> Section {
    Section::of_requests("AAA, AAS, DAA, DAS", 4 * 256, move |part, tally| {
        let sets = form.flag_sets(&mut form.draw(4, part));
        let (op, ah) = (ADJUSTS[(part / 256) as usize], (part % 256) as u32);
        for al in 0x00..=0xFF {
            each(tally, (op, 0), ah << 8 | al, 0, &sets);
        }
    })
}

/// A part is an AH.
pub fn aad(form: Form) -> Section {
    Section::of_requests("AAD", 256, move |part, tally| {
        let mut draw = form.draw(5, part);
        let sets = form.flag_sets(&mut draw);
        for al in form.bytes(&mut draw) {
            for y in 0x00..=0xFF {
                each(tally, (AAD, 0), (part as u32) << 8 | al, y, &sets);
            }
        }
    })
}
