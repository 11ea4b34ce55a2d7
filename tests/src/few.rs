// few.rs: a short list of at most N elements that lives in place, so that a card can be copied and compared as a value.

use std::ops::{Deref, DerefMut};

#[derive(Clone, Copy, PartialEq, Eq, Hash, Debug)]
pub struct Few<T: Copy + Default, const N: usize> {
    items: [T; N],
    count: u8,
}

impl<T: Copy + Default, const N: usize> Few<T, N> {
    pub fn new() -> Self {
        Few { items: [T::default(); N], count: 0 }
    }

    /// Callers test the limit first; a push past it is dropped so that every function stays total.
    pub fn push(&mut self, item: T) {
        if (self.count as usize) < N {
            self.items[self.count as usize] = item;
            self.count += 1;
        }
    }
}

impl<T: Copy + Default, const N: usize> Default for Few<T, N> {
    fn default() -> Self {
        Few::new()
    }
}

impl<T: Copy + Default, const N: usize> Deref for Few<T, N> {
    type Target = [T];
    fn deref(&self) -> &[T] {
        &self.items[..self.count as usize]
    }
}

impl<T: Copy + Default, const N: usize> DerefMut for Few<T, N> {
    fn deref_mut(&mut self) -> &mut [T] {
        &mut self.items[..self.count as usize]
    }
}
