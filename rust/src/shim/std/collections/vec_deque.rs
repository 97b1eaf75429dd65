//! Queues with two ends.

use crate::shim::std::alloc::{AllocError, AllocFailed, Global};
use std::collections::vec_deque;
use std::fmt;
use std::ops::{Deref, DerefMut};

/// Rust's queue. Each method that allocates returns an error when memory runs out.
#[derive(PartialEq, Eq)]
pub struct VecDeque<T>(vec_deque::VecDeque<T>);

impl<T> VecDeque<T> {
    /// An empty queue, which has allocated nothing.
    pub const fn new(_: Global) -> VecDeque<T> {
        VecDeque(vec_deque::VecDeque::new())
    }

    /// Makes room for this many more elements.
    pub fn reserve(&mut self, additional: usize) -> Result<(), AllocError> {
        Ok(self.0.try_reserve(additional)?)
    }

    /// Appends an element, or gives it back.
    pub fn push_back(&mut self, value: T) -> Result<(), AllocFailed<T>> {
        if self.0.len() == self.0.capacity() && self.0.try_reserve(1).is_err() {
            return Err(AllocFailed { value });
        }
        self.0.push_back(value);
        Ok(())
    }

    /// Puts an element before the others, or gives it back.
    pub fn push_front(&mut self, value: T) -> Result<(), AllocFailed<T>> {
        if self.0.len() == self.0.capacity() && self.0.try_reserve(1).is_err() {
            return Err(AllocFailed { value });
        }
        self.0.push_front(value);
        Ok(())
    }

    /// Inserts an element, or gives it back.
    pub fn insert(&mut self, index: usize, value: T) -> Result<(), AllocFailed<T>> {
        if self.0.len() == self.0.capacity() && self.0.try_reserve(1).is_err() {
            return Err(AllocFailed { value });
        }
        self.0.insert(index, value);
        Ok(())
    }
}

// The methods that don't allocate are Rust's own.
impl<T> Deref for VecDeque<T> {
    type Target = vec_deque::VecDeque<T>;

    fn deref(&self) -> &vec_deque::VecDeque<T> {
        &self.0
    }
}

impl<T> DerefMut for VecDeque<T> {
    fn deref_mut(&mut self) -> &mut vec_deque::VecDeque<T> {
        &mut self.0
    }
}

impl<'a, T> IntoIterator for &'a VecDeque<T> {
    type Item = &'a T;

    type IntoIter = vec_deque::Iter<'a, T>;

    fn into_iter(self) -> Self::IntoIter {
        self.0.iter()
    }
}

impl<T> IntoIterator for VecDeque<T> {
    type Item = T;

    type IntoIter = vec_deque::IntoIter<T>;

    fn into_iter(self) -> Self::IntoIter {
        self.0.into_iter()
    }
}

impl<T: fmt::Debug> fmt::Debug for VecDeque<T> {
    fn fmt(&self, f: &mut fmt::Formatter<'_>) -> fmt::Result {
        self.0.fmt(f)
    }
}
