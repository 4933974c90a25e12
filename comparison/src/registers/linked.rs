//! The function as C calls it. It is declared here, as in include/hatchyarn.h, so that each of the five numbers can be
//! lent from a place of its own. The crate `hatchyarn` links the library.

use super::call::Call;

mod c {
    extern "C" {
        pub fn hatchyarn_registers(
            op: u8,
            mode: u8,
            y: u16,
            ax: *mut u16,
            dx: *mut u16,
            flags: *mut u16,
            total: *mut u32,
            steps: *mut u16,
        ) -> u8;
    }
}

/// Works over the four numbers, writes the steps, and returns the status.
#[inline(always)]
pub fn registers(
    call: Call,
    ax: &mut u16,
    dx: &mut u16,
    flags: &mut u16,
    total: &mut u32,
    steps: &mut u16,
) -> u8 {
    // SAFETY: the function reads and writes four numbers and writes a fifth, and the five are apart.
    unsafe { c::hatchyarn_registers(call.op, call.mode, call.y, ax, dx, flags, total, steps) }
}
