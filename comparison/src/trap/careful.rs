//! What a careful engineer writes in plain Rust for the promise of the function: the same refusals in the same
//! order, then the host's own division, checked, and whether the quotient fits. Benchmarks time the port beside
//! it.

/// Tells as the port's function does. It is never inlined, because the port's is a call too.
#[inline(never)]
pub fn would_trap(mode: u8, dividend: u32, divisor: u16, trap: &mut u8) -> u8 {
    *trap = 1;
    if mode & !0x07 != 0 {
        return 4;
    }
    if mode & 0x01 == 0 && (dividend > 0xFFFF || divisor > 0xFF) {
        return 5;
    }
    *trap = match mode & 0x03 {
        0x00 => bytes(dividend as u16, divisor as u8),
        0x01 => words(dividend, divisor),
        0x02 => signed_bytes(dividend as u16 as i16, divisor as u8 as i8),
        _ => signed_words(dividend as i32, divisor as i16),
    }
    .into();
    0
}

fn bytes(dividend: u16, divisor: u8) -> bool {
    let quotient = dividend.checked_div(divisor.into());
    quotient.is_none_or(|quotient| quotient > 0xFF)
}

fn words(dividend: u32, divisor: u16) -> bool {
    let quotient = dividend.checked_div(divisor.into());
    quotient.is_none_or(|quotient| quotient > 0xFFFF)
}

/// The lowest dividend by -1 has no quotient of 16 bits either. -128 fits a byte, and the chip refuses it.
fn signed_bytes(dividend: i16, divisor: i8) -> bool {
    let quotient = dividend.checked_div(divisor.into());
    quotient.is_none_or(|quotient| !(-0x7F..=0x7F).contains(&quotient))
}

fn signed_words(dividend: i32, divisor: i16) -> bool {
    let quotient = dividend.checked_div(divisor.into());
    quotient.is_none_or(|quotient| !(-0x7FFF..=0x7FFF).contains(&quotient))
}
