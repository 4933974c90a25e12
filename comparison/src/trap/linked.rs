//! The function as C calls it. It is declared here, as in include/hatchyarn.h, so that what is held and timed is
//! the library's function with nothing around it. The crate `hatchyarn` links the library.

mod c {
    extern "C" {
        pub fn hatchyarn_would_trap(mode: u8, dividend: u32, divisor: u16, trap: *mut u8) -> u8;
    }
}

/// Whether the divide would be refused, in `trap`, and the status.
#[inline(always)]
pub fn would_trap(mode: u8, dividend: u32, divisor: u16, trap: &mut u8) -> u8 {
    // SAFETY: the function writes one byte, and the pointer leads to one.
    unsafe { c::hatchyarn_would_trap(mode, dividend, divisor, trap) }
}
