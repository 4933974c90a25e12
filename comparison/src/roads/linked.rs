//! The function as C calls it. It is declared here, as in include/hatchyarn.h, so that what is held and timed is
//! the library's function with nothing around it. The crate `hatchyarn` links the library.

mod c {
    extern "C" {
        pub fn hatchyarn_roads(mode: u8, dividend: u32, divisor: u16, roads: *mut u16) -> u8;
    }
}

/// The ones by a bit shifted out and those by no borrow, in `roads`, and the status.
#[inline(always)]
pub fn roads(mode: u8, dividend: u32, divisor: u16, roads: &mut [u16; 2]) -> u8 {
    // SAFETY: the function writes two numbers, and the pointer leads to two.
    unsafe { c::hatchyarn_roads(mode, dividend, divisor, roads.as_mut_ptr()) }
}
