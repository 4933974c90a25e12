//! Stands in for the parts of MartyPC's `Intel808x` that its three files call
//! but do not hold.
//!
//! Nothing here is MartyPC's text. Each item says what it rests on. The names
//! are MartyPC's, because the three files must find them.

/// Counts one step for each entry listed.
///
/// The three files use the macro and do not give it. It rests on the project's
/// scope: every entry that the macro is given is a step.
macro_rules! cycles_mc {
    ($cpu:expr, $($entry:expr),+ $(,)?) => {{
        $( $cpu.cycle_i($entry); )+
    }};
}
pub(crate) use cycles_mc;

/// The microcode entry for a jump.
///
/// The three files use the name and do not give its value. The project's scope
/// counts a jump as one step, whatever its number, so the number is never read.
pub const MC_JUMP: u16 = 0x1FE;

/// The microcode entry for a return. It rests on the same rule as [`MC_JUMP`].
pub const MC_RTN: u16 = 0x1FF;

/// True at each byte that holds an even number of ones.
///
/// The three files read the table and do not give it. It rests on the project's
/// scope's rule for P.
pub const PARITY_TABLE: [bool; 256] = parity_table();

const fn parity_table() -> [bool; 256] {
    let mut table = [false; 256];
    let mut byte = 0;
    while byte < 256 {
        table[byte] = byte.count_ones() % 2 == 0;
        byte += 1;
    }
    table
}

/// The six flags, each with its bit.
///
/// The three files use the names. The bits rest on the project's scope, the
/// flags word.
#[derive(Clone, Copy, Debug, PartialEq, Eq)]
#[repr(u16)]
pub enum Flag {
    Carry = 0x0001,
    Parity = 0x0004,
    AuxCarry = 0x0010,
    Zero = 0x0040,
    Sign = 0x0080,
    Overflow = 0x0800,
}

/// The two byte registers that the decimal adjusts write.
///
/// The three files use the names and do not give the type. That AH is the high
/// half of AX and AL the low half rests on the project's scope, decimal chart.
#[derive(Clone, Copy, Debug, PartialEq, Eq)]
pub enum Register8 {
    AH,
    AL,
}

/// AX, read whole or by halves.
///
/// The three files call `l` and `h` on the field `a` and do not give its type.
/// It rests on the same rule as [`Register8`].
#[derive(Clone, Copy, Debug, Default, PartialEq, Eq)]
pub struct Accumulator(u16);

impl Accumulator {
    #[inline]
    pub fn x(self) -> u16 {
        self.0
    }

    #[inline]
    pub fn h(self) -> u8 {
        (self.0 >> 8) as u8
    }

    #[inline]
    pub fn l(self) -> u8 {
        self.0 as u8
    }
}

/// The processor, cut down to what arithmetic touches: AX, flags and steps.
///
/// The three files add their functions to a type of this name and do not give
/// its fields. Which fields an answer needs rests on the project's scope,
/// request and answer lines.
#[derive(Clone, Debug, Default, PartialEq, Eq)]
pub struct Intel808x {
    pub a: Accumulator,
    flags: u16,
    steps: u16,
}

impl Intel808x {
    /// A processor with no step counted. Ours alone; MartyPC has no such call.
    #[inline]
    pub fn with(ax: u16, flags: u16) -> Intel808x {
        Intel808x {
            a: Accumulator(ax),
            flags,
            steps: 0,
        }
    }

    /// The flags word. Ours alone, to write the answer.
    #[inline]
    pub fn flags(&self) -> u16 {
        self.flags
    }

    /// The steps counted. Ours alone, to write the answer.
    #[inline]
    pub fn steps(&self) -> u16 {
        self.steps
    }

    /// Counts one step. The three files do not give it. It rests on the
    /// project's scope, multiply chart: one `cycle_i` is one step. No request
    /// comes near the end of the counter; it wraps so that a benchmark may use
    /// one processor for many calls.
    #[inline]
    pub fn cycle_i(&mut self, _entry: u16) {
        self.steps = self.steps.wrapping_add(1);
    }

    /// Writes one half of AX. The three files do not give it; it rests on the
    /// same rule as [`Register8`].
    #[inline]
    pub fn set_register8(&mut self, register: Register8, value: u8) {
        let (high, low) = match register {
            Register8::AH => (value, self.a.l()),
            Register8::AL => (self.a.h(), value),
        };
        self.a = Accumulator(u16::from(high) << 8 | u16::from(low));
    }

    /// Reads one flag. The three files do not give it or its three fellows
    /// below; they rest on the project's scope: to set one flag leaves the
    /// others.
    #[inline]
    pub fn get_flag(&self, flag: Flag) -> bool {
        self.flags & flag as u16 != 0
    }

    /// Sets one flag and leaves the others.
    #[inline]
    pub fn set_flag(&mut self, flag: Flag) {
        self.flags |= flag as u16;
    }

    /// Clears one flag and leaves the others.
    #[inline]
    pub fn clear_flag(&mut self, flag: Flag) {
        self.flags &= !(flag as u16);
    }

    /// Makes one flag as told and leaves the others.
    #[inline]
    pub fn set_flag_state(&mut self, flag: Flag, state: bool) {
        if state {
            self.set_flag(flag);
        } else {
            self.clear_flag(flag);
        }
    }

    /// S, Z and P of a compare in a divide. The three files do not give it. It
    /// rests on the project's scope, divide chart: the compare is passed as
    /// u16 and S is bit 15, so S is clear for a divide of eight bits.
    #[inline]
    pub fn set_szp_flags_from_result(&mut self, result: u16) {
        self.set_szp_flags_from_result_u16(result);
    }

    /// S, Z and P of a byte. The three files do not give it. It rests on the
    /// project's scope, decimal chart: S, Z and P of AL.
    #[inline]
    pub fn set_szp_flags_from_result_u8(&mut self, result: u8) {
        self.set_szp(result & 0x80 != 0, result == 0, result);
    }

    /// S, Z and P of a word. The three files do not give it. It rests on the
    /// project's scope, multiply chart: the upper half is read as a 16-bit
    /// word. P reads the low eight bits, as the flags word says.
    #[inline]
    pub fn set_szp_flags_from_result_u16(&mut self, result: u16) {
        self.set_szp(result & 0x8000 != 0, result == 0, result as u8);
    }

    #[inline]
    fn set_szp(&mut self, sign: bool, zero: bool, low: u8) {
        self.set_flag_state(Flag::Sign, sign);
        self.set_flag_state(Flag::Zero, zero);
        self.set_flag_state(Flag::Parity, PARITY_TABLE[usize::from(low)]);
    }
}
