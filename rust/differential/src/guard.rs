//! Buffers with a guard on both sides, so that a write past either end is noticed.

use crate::rng::Word;
use std::ops::{Deref, DerefMut};

const LENGTH: usize = 24;
const SEED: u64 = 0x6775_6172_6473;

pub struct Guarded<T> {
    all: Vec<T>,
}

impl<T: Word> Guarded<T> {
    pub fn new(lent: &[T]) -> Self {
        let guard = T::noise(LENGTH, SEED);
        Self { all: [&guard, lent, &guard].concat() }
    }

    pub fn whole(&self) -> bool {
        let guard = T::noise(LENGTH, SEED);
        self.all.starts_with(&guard) && self.all.ends_with(&guard)
    }

    /// Returns the first number past the end of the lent part.
    pub fn past(&mut self) -> &mut T {
        let end = self.all.len() - LENGTH;
        &mut self.all[end]
    }
}

impl<T> Deref for Guarded<T> {
    type Target = [T];

    fn deref(&self) -> &[T] {
        &self.all[LENGTH..self.all.len() - LENGTH]
    }
}

impl<T> DerefMut for Guarded<T> {
    fn deref_mut(&mut self) -> &mut [T] {
        let end = self.all.len() - LENGTH;
        &mut self.all[LENGTH..end]
    }
}
