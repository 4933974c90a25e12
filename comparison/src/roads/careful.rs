//! What a careful engineer writes in plain Rust for the promise of the function: the same refusals in the same
//! order, the magnitudes, and the rounds of the long division. Benchmarks time the port beside it.

/// Counts as the port's function does. It is never inlined, because the port's is a call too.
#[inline(never)]
pub fn roads(mode: u8, dividend: u32, divisor: u16, roads: &mut [u16; 2]) -> u8 {
    *roads = [0, 0];
    if mode & !0x07 != 0 {
        return 4;
    }
    if mode & 0x01 == 0 && (dividend > 0xFFFF || divisor > 0xFF) {
        return 5;
    }
    let counted = match mode & 0x03 {
        0x00 => unsigned::<8>(dividend, divisor.into()),
        0x01 => unsigned::<16>(dividend, divisor.into()),
        0x02 => signed::<8>(
            (dividend as u16 as i16).unsigned_abs().into(),
            (divisor as u8 as i8).unsigned_abs().into(),
        ),
        _ => signed::<16>(
            (dividend as i32).unsigned_abs(),
            (divisor as i16).unsigned_abs().into(),
        ),
    };
    match counted {
        Ok(counted) => {
            *roads = counted;
            0
        }
        Err(status) => status,
    }
}

fn unsigned<const BITS: u32>(dividend: u32, divisor: u32) -> Result<[u16; 2], u8> {
    if divisor == 0 {
        return Err(6);
    }
    if dividend >> BITS >= divisor {
        return Err(8);
    }
    Ok(walk::<BITS>(dividend, divisor))
}

/// Takes magnitudes. A quotient of N bits leaves none for the sign if its first round gives a 1.
fn signed<const BITS: u32>(dividend: u32, divisor: u32) -> Result<[u16; 2], u8> {
    if divisor != 0 && dividend >> BITS < divisor && dividend >> (BITS - 1) >= divisor {
        return Err(9);
    }
    unsigned::<BITS>(dividend, divisor)
}

fn walk<const BITS: u32>(dividend: u32, divisor: u32) -> [u16; 2] {
    let [mut shifted_out, mut no_borrow] = [0, 0];
    let mut left = dividend >> BITS;
    for place in (0..BITS).rev() {
        left = left << 1 | dividend >> place & 1;
        if left >= divisor {
            let has_left = left >> BITS != 0;
            shifted_out += u16::from(has_left);
            no_borrow += u16::from(!has_left);
            left -= divisor;
        }
    }
    [shifted_out, no_borrow]
}
