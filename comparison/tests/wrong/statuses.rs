//! Divides that are refused for the wrong reason, or not where they should be.

use comparison::asked::Asked;
use comparison::refused_flags::Divide;
use comparison::sides::{ours, Numbers, Side};

/// Each wrong rule by its name.
pub const RULES: [(&str, Side); 6] = [
    ("zero divisor as too wide", |asked| {
        by(zero_divisor_as_too_wide, asked)
    }),
    ("first of sign range as too wide", |asked| {
        by(first_of_sign_range_as_too_wide, asked)
    }),
    ("last of sign range as too wide", |asked| {
        by(last_of_sign_range_as_too_wide, asked)
    }),
    ("first too wide as sign range", |asked| {
        by(first_too_wide_as_sign_range, asked)
    }),
    ("unsigned too wide as sign range", |asked| {
        by(unsigned_too_wide_as_sign_range, asked)
    }),
    ("sign range of unsigned", |asked| {
        by(sign_range_of_unsigned, asked)
    }),
];

/// The port, but that divides have the status of a wrong rule, which is given the right one.
fn by(rule: fn(&Divide, u8) -> u8, asked: Asked) -> Numbers {
    let given = ours(asked);
    if asked.op != 0x11 {
        return given;
    }
    let status = rule(&Divide::from(asked), given.status);
    Numbers { status, ..given }
}

fn zero_divisor_as_too_wide(divide: &Divide, status: u8) -> u8 {
    match divide.quotient() {
        None => 8,
        Some(_) => status,
    }
}

fn first_of_sign_range_as_too_wide(divide: &Divide, status: u8) -> u8 {
    if divide.quotient() == Some(1 << (divide.bits - 1)) && divide.signed {
        8
    } else {
        status
    }
}

fn last_of_sign_range_as_too_wide(divide: &Divide, status: u8) -> u8 {
    if divide.quotient() == Some((1 << divide.bits) - 1) && divide.signed {
        8
    } else {
        status
    }
}

fn first_too_wide_as_sign_range(divide: &Divide, status: u8) -> u8 {
    if divide.quotient() == Some(1 << divide.bits) && divide.signed {
        9
    } else {
        status
    }
}

fn unsigned_too_wide_as_sign_range(divide: &Divide, status: u8) -> u8 {
    if status == 8 && !divide.signed {
        9
    } else {
        status
    }
}

fn sign_range_of_unsigned(divide: &Divide, status: u8) -> u8 {
    let has_high_bit = divide.quotient() >= Some(1 << (divide.bits - 1));
    if status == 0 && !divide.signed && has_high_bit {
        9
    } else {
        status
    }
}
