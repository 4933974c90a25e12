//! How much a run compares: all that can be afforded, or a part that tests can wait for.

use oracle::draw::Draw;
use oracle::request::ALL_FLAGS;

#[derive(Clone, Copy, Debug, PartialEq, Eq)]
pub struct Form {
    pub full: bool,
    pub seed: u64,
}

impl Form {
    /// The first in the full form, the second in the quick one.
    pub fn choose<T>(self, full: T, quick: T) -> T {
        if self.full {
            full
        } else {
            quick
        }
    }

    /// A source for one part of one section. A part always draws the same, whichever thread has it.
    pub fn draw(self, section: u64, part: u64) -> Draw {
        let mut seeds = Draw::new(self.seed);
        Draw::new(seeds.bits() ^ section << 56 ^ part << 24)
    }

    /// All 64 flag sets; in the quick form the empty one, the full one and six that are drawn.
    pub fn flag_sets(self, draw: &mut Draw) -> Vec<u16> {
        if self.full {
            let is_set = |word: &u16| word & !ALL_FLAGS == 0;
            return (0..=ALL_FLAGS).filter(is_set).collect();
        }
        let drawn = (0..6).map(|_| draw.bits() as u16 & ALL_FLAGS);
        [0, ALL_FLAGS].into_iter().chain(drawn).collect()
    }

    /// All bytes; in the quick form 32 of them, drawn.
    pub fn bytes(self, draw: &mut Draw) -> Vec<u32> {
        self.some_bytes(draw, 32)
    }

    /// All bytes; in the quick form so many of them, drawn.
    pub fn some_bytes(self, draw: &mut Draw, quick: usize) -> Vec<u32> {
        if self.full {
            return (0x00..=0xFF).collect();
        }
        (0..quick).map(|_| draw.below(256)).collect()
    }
}
