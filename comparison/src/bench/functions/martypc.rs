//! MartyPC's functions, each as a call that writes its result to where a pointer leads, as the
//! port's do.

use super::given::{Done, Halves, ResultC, ResultCo, ResultCoa};
use oracle::cpu_808x::Intel808x;
use oracle::cpu_common::alu::*;
use std::mem::MaybeUninit;

macro_rules! leaves {
    ($($name:ident: $bound:ident($($argument:ident: $kind:ty),*) -> $given:ident;)*) => {
        $(
            #[inline(never)]
            pub fn $name<T: $bound>(out: &mut MaybeUninit<$given<T>>, x: T, $($argument: $kind),*) {
                out.write(x.$name($($argument),*).into());
            }
        )*
    };
}

leaves! {
    alu_add: AluAdd(y: T) -> ResultCoa;
    alu_adc: AluAdc(y: T, carry: bool) -> ResultCoa;
    alu_sub: AluSub(y: T) -> ResultCoa;
    alu_sbb: AluSbb(y: T, carry: bool) -> ResultCoa;
    alu_neg: AluNeg() -> ResultCoa;
    alu_shl: AluShiftLeft(count: u8) -> ResultCo;
    alu_shr: AluShiftRight(count: u8) -> ResultC;
    alu_sar: AluShiftArithmeticRight(count: u8) -> ResultC;
    alu_rol: AluRotateLeft(count: u8) -> ResultCo;
    alu_ror: AluRotateRight(count: u8) -> ResultCo;
    alu_rcl: AluRotateCarryLeft(count: u8, carry: bool) -> ResultCo;
    alu_rcr: AluRotateCarryRight(count: u8, carry: bool) -> ResultCo;
    alu_shl_af: AluShiftLeftAf(count: u8) -> ResultCoa;
}

type Out<R> = MaybeUninit<Done<R, u16>>;

#[inline(never)]
pub fn mul8(out: &mut Out<u16>, x: u8, y: u8, signed: bool, rep: bool, flags: u16) {
    let mut cpu = Intel808x::with(0, flags);
    let given = cpu.mul8(x, y, signed, rep);
    done(out, given, &cpu);
}

#[inline(never)]
pub fn mul16(out: &mut Out<Halves<u16>>, x: u16, y: u16, signed: bool, rep: bool, flags: u16) {
    let mut cpu = Intel808x::with(0, flags);
    let (upper, lower) = cpu.mul16(x, y, signed, rep);
    done(out, Halves { upper, lower }, &cpu);
}

type Outcome<T> = Result<(T, T), bool>;

#[inline(never)]
pub fn div8(out: &mut Out<Outcome<u8>>, x: u16, y: u8, signed: bool, rep: bool, flags: u16) {
    let mut cpu = Intel808x::with(0, flags);
    let given = cpu.div8(x, y, signed, rep);
    done(out, given, &cpu);
}

#[inline(never)]
pub fn div16(out: &mut Out<Outcome<u16>>, x: u32, y: u16, signed: bool, rep: bool, flags: u16) {
    let mut cpu = Intel808x::with(0, flags);
    let given = cpu.div16(x, y, signed, rep);
    done(out, given, &cpu);
}

macro_rules! adjusts {
    ($($name:ident($($byte:ident)?);)*) => {
        $(
            #[inline(never)]
            pub fn $name(out: &mut Out<u16>, ax: u16, $($byte: u8,)? flags: u16) {
                let mut cpu = Intel808x::with(ax, flags);
                cpu.$name($($byte)?);
                done(out, cpu.a.x(), &cpu);
            }
        )*
    };
}

adjusts! {
    aaa();
    aas();
    aad(byte);
    daa();
    das();
}

/// What a function of the processor gives, with the flags and steps that it left there.
#[inline(always)]
fn done<R>(out: &mut Out<R>, given: R, cpu: &Intel808x) {
    out.write(Done {
        given,
        flags: cpu.flags(),
        steps: cpu.steps(),
    });
}
