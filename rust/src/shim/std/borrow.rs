//! Values that are borrowed or owned.

use super::alloc::{AllocError, Global};
use super::vec::Vec;
use ::std::ops::Deref;

/// A slice that is borrowed or owned.
pub enum CowSlice<'a, T> {
    Borrowed(&'a [T]),
    Owned(Vec<T>),
}

impl<T: Copy> CowSlice<'_, T> {
    /// The elements, copied if they are borrowed.
    pub fn into_owned(self, alloc: Global) -> Result<Vec<T>, AllocError> {
        match self {
            CowSlice::Borrowed(items) => Vec::from_slice(alloc, items),
            CowSlice::Owned(items) => Ok(items),
        }
    }
}

impl<T> CowSlice<'_, T> {
    /// The elements.
    pub fn as_slice(&self) -> &[T] {
        self
    }
}

impl<T> Deref for CowSlice<'_, T> {
    type Target = [T];

    fn deref(&self) -> &[T] {
        match self {
            CowSlice::Borrowed(items) => items,
            CowSlice::Owned(items) => items,
        }
    }
}
