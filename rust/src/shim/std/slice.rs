//! Methods of slices that allocate.

use super::alloc::{AllocError, Global};
use super::sort;
use super::string::String;
use super::vec::Vec;
use ::std::cmp::Ordering;

/// The methods of slices that take an allocator.
pub trait SliceExt<T> {
    /// A vector of copies.
    fn to_vec_in(&self, alloc: Global) -> Result<Vec<T>, AllocError>
    where
        T: Copy;

    /// This many copies of all elements, one after another.
    fn repeat_in(&self, alloc: Global, count: usize) -> Result<Vec<T>, AllocError>
    where
        T: Copy;

    /// Sorts the elements; equal ones keep their order.
    fn sort_in(&mut self, alloc: Global) -> Result<(), AllocError>
    where
        T: Ord;

    /// Sorts the elements by an order; equal ones keep their order.
    fn sort_by_in<F: FnMut(&T, &T) -> Ordering>(&mut self, alloc: Global, compare: F) -> Result<(), AllocError>;

    /// Sorts the elements by a key; equal ones keep their order.
    fn sort_by_key_in<K: Ord, F: FnMut(&T) -> K>(&mut self, alloc: Global, key: F) -> Result<(), AllocError>;
}

impl<T> SliceExt<T> for [T] {
    fn to_vec_in(&self, alloc: Global) -> Result<Vec<T>, AllocError>
    where
        T: Copy,
    {
        Vec::from_slice(alloc, self)
    }

    fn repeat_in(&self, alloc: Global, count: usize) -> Result<Vec<T>, AllocError>
    where
        T: Copy,
    {
        let mut vec = Vec::with_capacity(alloc, self.len().checked_mul(count).ok_or(AllocError)?)?;
        for _ in 0..count {
            vec.extend_from_slice(self)?;
        }
        Ok(vec)
    }

    fn sort_in(&mut self, _: Global) -> Result<(), AllocError>
    where
        T: Ord,
    {
        sort::sort_by(self, T::cmp)
    }

    fn sort_by_in<F: FnMut(&T, &T) -> Ordering>(&mut self, _: Global, compare: F) -> Result<(), AllocError> {
        sort::sort_by(self, compare)
    }

    fn sort_by_key_in<K: Ord, F: FnMut(&T) -> K>(&mut self, _: Global, key: F) -> Result<(), AllocError> {
        sort::sort_by_key(self, key)
    }
}

/// Texts and slices that can be joined.
pub trait ConcatExt {
    /// What they make when joined.
    type Joined;

    /// Joins them.
    fn concat_in(&self, alloc: Global) -> Result<Self::Joined, AllocError>;
}

impl ConcatExt for [&str] {
    type Joined = String;

    fn concat_in(&self, alloc: Global) -> Result<String, AllocError> {
        let mut text = String::new(alloc);
        for part in self {
            text.push_str(part)?;
        }
        Ok(text)
    }
}

impl<T: Copy> ConcatExt for [&[T]] {
    type Joined = Vec<T>;

    fn concat_in(&self, alloc: Global) -> Result<Vec<T>, AllocError> {
        let mut vec = Vec::new(alloc);
        for part in self {
            vec.extend_from_slice(part)?;
        }
        Ok(vec)
    }
}
