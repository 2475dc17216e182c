//! Buffers as a caller lends them, with guards on both sides.

use crate::comparison::rng::Rng;

/// A lent buffer, and guard items before and after it that no function may
/// change.
#[derive(Clone, Debug, Default, PartialEq, Eq)]
pub struct Lent<T> {
    all: Vec<T>,
    front: usize,
    length: usize,
}

/// Guard items after the lent ones.
const BACK: usize = 16;

impl<T: Copy + PartialEq> Lent<T> {
    pub fn slice(&self) -> &[T] {
        &self.all[self.front..self.front + self.length]
    }

    pub fn slice_mut(&mut self) -> &mut [T] {
        &mut self.all[self.front..self.front + self.length]
    }

    pub fn len(&self) -> usize {
        self.length
    }

    pub fn is_empty(&self) -> bool {
        self.length == 0
    }

    /// The first place where two buffers differ, counted from the first lent
    /// item: guards before it have negative places.
    pub fn first_difference(&self, other: &Lent<T>) -> Option<i64> {
        let differs = |index: &usize| self.all[*index] != other.all[*index];
        let index = (0..self.all.len()).find(differs)?;
        Some(index as i64 - self.front as i64)
    }
}

impl Lent<u8> {
    /// Random bytes, at any alignment.
    pub fn random(rng: &mut Rng, length: usize) -> Lent<u8> {
        let front = rng.between(8, 15) as usize;
        Lent {
            all: rng.bytes(front + length + BACK),
            front,
            length,
        }
    }

    /// These bytes, between random guards.
    pub fn of(rng: &mut Rng, bytes: &[u8]) -> Lent<u8> {
        let mut lent = Lent::<u8>::random(rng, bytes.len());
        lent.slice_mut().copy_from_slice(bytes);
        lent
    }
}

/// Numbers as they are lent in buffers of their own.
pub trait Number: Copy + PartialEq {
    fn of(random: u64) -> Self;
}

impl Number for u64 {
    fn of(random: u64) -> u64 {
        random
    }
}

impl Number for u32 {
    fn of(random: u64) -> u32 {
        (random >> 32) as u32
    }
}

impl<T: Number> Lent<T> {
    /// Random numbers.
    pub fn random_numbers(rng: &mut Rng, length: usize) -> Lent<T> {
        let front = 2;
        let all = (0..front + length + BACK).map(|_| T::of(rng.number()));
        Lent {
            all: all.collect(),
            front,
            length,
        }
    }

    /// These numbers, between random guards.
    pub fn of_numbers(rng: &mut Rng, numbers: &[T]) -> Lent<T> {
        let mut lent = Lent::random_numbers(rng, numbers.len());
        lent.slice_mut().copy_from_slice(numbers);
        lent
    }
}
