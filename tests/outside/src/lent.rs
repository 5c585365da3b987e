//! Memory lent to a call: the lent part lies between random items, which the call must leave as they are.

use crate::rng::Rng;

pub trait Item: Copy + PartialEq + std::fmt::Debug {
    fn random(rng: &mut Rng, length: usize) -> Vec<Self>;
}

impl Item for u8 {
    fn random(rng: &mut Rng, length: usize) -> Vec<u8> {
        rng.bytes(length)
    }
}

impl Item for u64 {
    fn random(rng: &mut Rng, length: usize) -> Vec<u64> {
        (0..length).map(|_| rng.next()).collect()
    }
}

#[derive(Clone)]
pub struct Lent<T> {
    whole: Vec<T>,
    start: usize,
    end: usize,
}

impl<T: Item> Lent<T> {
    /// A lent part of random items. The number of items before it varies, and with it the alignment of bytes.
    pub fn random(rng: &mut Rng, length: usize) -> Self {
        let start = 16 + rng.index(16);
        let end = start + length;
        let whole = T::random(rng, end + 16);
        Lent { whole, start, end }
    }

    /// A lent part with these items.
    pub fn holding(rng: &mut Rng, items: &[T]) -> Self {
        let start = 16 + rng.index(16);
        let end = start + items.len();
        let mut whole = T::random(rng, start);
        whole.extend_from_slice(items);
        whole.extend(T::random(rng, 16));
        Lent { whole, start, end }
    }

    pub fn part(&self) -> &[T] {
        &self.whole[self.start..self.end]
    }

    pub fn part_mut(&mut self) -> &mut [T] {
        &mut self.whole[self.start..self.end]
    }

    /// The lent part and what lies around it.
    pub fn whole(&self) -> &[T] {
        &self.whole
    }

    /// Everything but the lent part is the same in both.
    pub fn same_around(&self, other: &Self) -> bool {
        self.start == other.start
            && self.end == other.end
            && self.whole[..self.start] == other.whole[..other.start]
            && self.whole[self.end..] == other.whole[other.end..]
    }

    /// The first position that differs, counted from the start of the lent part.
    pub fn first_difference(&self, other: &Self) -> Option<i64> {
        let differs = |(a, b): (&T, &T)| a != b;
        let at = self.whole.iter().zip(&other.whole).position(differs)?;
        Some(at as i64 - self.start as i64)
    }
}
