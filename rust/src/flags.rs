use std::fmt;
use std::ops::BitOr;

/// A set of the six flags.
///
/// ```
/// use hatchyarn::Flags;
///
/// let flags = Flags::CARRY | Flags::ZERO;
/// assert!(flags.contains(Flags::ZERO));
/// assert_eq!(flags.word(), 0x0041);
/// assert_eq!(Flags::new(0x0041), Some(flags));
/// assert_eq!(Flags::new(0x0002), None);
/// ```
#[derive(Clone, Copy, Debug, Default, PartialEq, Eq, Hash)]
pub struct Flags(u16);

impl Flags {
    pub const NONE: Flags = Flags(0);
    pub const CARRY: Flags = Flags(0x0001);
    pub const PARITY: Flags = Flags(0x0004);
    pub const AUX_CARRY: Flags = Flags(0x0010);
    pub const ZERO: Flags = Flags(0x0040);
    pub const SIGN: Flags = Flags(0x0080);
    pub const OVERFLOW: Flags = Flags(0x0800);
    pub const ALL: Flags = Flags(0x08D5);

    /// The flags of a word; `None` where a bit of it is no flag.
    pub const fn new(word: u16) -> Option<Flags> {
        if word & !Flags::ALL.0 == 0 {
            Some(Flags(word))
        } else {
            None
        }
    }

    /// The flags among the bits of a word.
    pub(crate) const fn among(word: u16) -> Flags {
        Flags(word & Flags::ALL.0)
    }

    pub const fn word(self) -> u16 {
        self.0
    }

    /// Whether all of `others` are set.
    pub const fn contains(self, others: Flags) -> bool {
        self.0 & others.0 == others.0
    }
}

impl BitOr for Flags {
    type Output = Flags;

    fn bitor(self, others: Flags) -> Flags {
        Flags(self.0 | others.0)
    }
}

/// The letters of the flags that are set, as `C A`; `-` where none is.
impl fmt::Display for Flags {
    fn fmt(&self, out: &mut fmt::Formatter) -> fmt::Result {
        const NAMES: [(Flags, &str); 6] = [
            (Flags::CARRY, "C"),
            (Flags::PARITY, "P"),
            (Flags::AUX_CARRY, "A"),
            (Flags::ZERO, "Z"),
            (Flags::SIGN, "S"),
            (Flags::OVERFLOW, "O"),
        ];
        let set: Vec<&str> = NAMES
            .iter()
            .filter(|(flag, _)| self.contains(*flag))
            .map(|(_, name)| *name)
            .collect();
        let joined = set.join(" ");
        out.pad(if set.is_empty() { "-" } else { &joined })
    }
}
