//! A buffer between guards: what a call may change lies inside a larger list, with a fixed pattern on both sides. A write outside the buffer
//! meets a guard first, and that can be seen afterwards.

use std::ops::{Deref, DerefMut};

/// How many guard elements lie on each side.
const GUARDS: usize = 8;

/// An element that has a pattern.
pub trait Guarded: Copy + std::fmt::Debug {
    /// The pattern at a place; it differs from place to place.
    fn pattern(place: usize) -> Self;
    /// Whether the bits are the same.
    fn same_bits(self, other: Self) -> bool;
}

impl Guarded for u32 {
    fn pattern(place: usize) -> u32 {
        0xa5c3_9600 + place as u32
    }
    fn same_bits(self, other: u32) -> bool {
        self == other
    }
}

impl Guarded for f64 {
    fn pattern(place: usize) -> f64 {
        f64::from_bits(0x4a5c_3961_e7d2_9600 + place as u64)
    }
    fn same_bits(self, other: f64) -> bool {
        self.to_bits() == other.to_bits()
    }
}

/// A list that is lent to be changed, with guards before and after it. It reads as the list alone.
#[derive(Clone, Debug)]
pub struct Buffer<T> {
    whole: Vec<T>,
}

impl<T: Guarded> Buffer<T> {
    /// Whether every guard still holds its pattern.
    #[must_use]
    pub fn guards_hold(&self) -> bool {
        let end = self.whole.len() - GUARDS;
        (0..GUARDS).all(|i| self.whole[i].same_bits(T::pattern(i)) && self.whole[end + i].same_bits(T::pattern(GUARDS + i)))
    }
}

impl<T: Guarded> From<Vec<T>> for Buffer<T> {
    fn from(list: Vec<T>) -> Buffer<T> {
        let before = (0..GUARDS).map(T::pattern);
        let after = (GUARDS..2 * GUARDS).map(T::pattern);
        Buffer {
            whole: before.chain(list).chain(after).collect(),
        }
    }
}

impl<T> Deref for Buffer<T> {
    type Target = [T];
    fn deref(&self) -> &[T] {
        &self.whole[GUARDS..self.whole.len() - GUARDS]
    }
}

impl<T> DerefMut for Buffer<T> {
    fn deref_mut(&mut self) -> &mut [T] {
        let end = self.whole.len() - GUARDS;
        &mut self.whole[GUARDS..end]
    }
}

#[cfg(test)]
mod tests {
    use super::*;

    #[test]
    fn a_touched_guard_is_seen() {
        let good = Buffer::from(vec![1u32, 2, 3]);
        assert_eq!(*good, [1, 2, 3]);
        for place in 0..good.whole.len() {
            let mut touched = good.clone();
            touched.whole[place] ^= 1;
            let inside = (GUARDS..GUARDS + 3).contains(&place);
            assert_eq!(touched.guards_hold(), inside, "place {place}");
        }
        let mut floats = Buffer::from(vec![0.5]);
        floats[0] = f64::NAN;
        assert!(floats.guards_hold());
        floats.whole[GUARDS + 1] = 0.0;
        assert!(!floats.guards_hold());
    }
}
