//! A buffer lent to a function, inside guards that nobody may write.

use std::ops::Range;

/// Bytes on either side of what is lent.
const GUARD: usize = 64;

/// What a buffer may hold, with a pattern that depends on the place.
pub trait Cell: Copy {
    fn at(place: usize) -> Self;
}

impl Cell for u8 {
    fn at(place: usize) -> u8 {
        ((place * 167 + 13) ^ (place >> 8)) as u8
    }
}

impl Cell for u16 {
    fn at(place: usize) -> u16 {
        (spread(place) >> 48) as u16
    }
}

impl Cell for usize {
    fn at(place: usize) -> usize {
        spread(place) as usize
    }
}

/// Other bits in every place, high and low, so that a number shows that is written by half.
fn spread(place: usize) -> u64 {
    (place as u64 + 1).wrapping_mul(0x9E37_79B9_7F4A_7C15)
}

/// A room inside a larger buffer. Every cell starts as the pattern of its place.
#[derive(Clone, Debug, PartialEq, Eq)]
pub struct Lent<T = u8> {
    pub whole: Vec<T>,
    pub room: Range<usize>,
}

impl<T: Cell> Lent<T> {
    pub fn new(room: usize) -> Lent<T> {
        let guard = GUARD / std::mem::size_of::<T>();
        Lent {
            whole: (0..room + 2 * guard).map(T::at).collect(),
            room: guard..guard + room,
        }
    }

    pub fn cells(&mut self) -> &mut [T] {
        &mut self.whole[self.room.clone()]
    }

    /// The same with these at the front of the room.
    pub fn with(mut self, front: &[T]) -> Lent<T> {
        self.cells()[..front.len()].copy_from_slice(front);
        self
    }
}

impl Lent {
    pub fn bytes(&mut self) -> &mut [u8] {
        self.cells()
    }
}
