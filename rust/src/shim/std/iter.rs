//! Iterators whose items are collected in memory that may run out.

use super::alloc::{AllocError, Global};

pub use ::std::iter::*;

/// A collection that is made of an iterator's items.
pub trait FromIteratorIn<T>: Sized {
    /// Collects the items.
    fn from_iter_in<I: Iterator<Item = T>>(alloc: Global, items: I) -> Result<Self, AllocError>;
}

/// The methods of iterators that take an allocator.
pub trait IteratorExt: Iterator + Sized {
    /// Collects the items.
    fn collect_in<B: FromIteratorIn<Self::Item>>(self, alloc: Global) -> Result<B, AllocError> {
        B::from_iter_in(alloc, self)
    }
}

impl<I: Iterator> IteratorExt for I {}
