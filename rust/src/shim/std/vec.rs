//! Vectors.

use super::alloc::{AllocError, AllocFailed, Global};
use super::clone::TryClone;
use super::iter::FromIteratorIn;
use super::sort;
use ::std::borrow::Borrow;
use ::std::cmp::Ordering;
use ::std::fmt;
use ::std::hash::{Hash, Hasher};
use ::std::io;
use ::std::ops::{Deref, DerefMut};
use ::std::slice;

/// Rust's vector. Each method that allocates returns an error when memory runs out.
#[derive(Eq, PartialOrd, Ord)]
pub struct Vec<T>(::std::vec::Vec<T>);

impl<T> Vec<T> {
    /// An empty vector, which has allocated nothing.
    pub const fn new(_: Global) -> Vec<T> {
        Vec(::std::vec::Vec::new())
    }

    /// An empty vector for this many elements.
    pub fn with_capacity(alloc: Global, capacity: usize) -> Result<Vec<T>, AllocError> {
        let mut vec = Vec::new(alloc);
        vec.0.try_reserve_exact(capacity)?;
        Ok(vec)
    }

    /// The elements of an array.
    pub fn from_array<const N: usize>(alloc: Global, items: [T; N]) -> Result<Vec<T>, AllocError> {
        let mut vec = Vec::with_capacity(alloc, N)?;
        vec.0.extend(items);
        Ok(vec)
    }

    /// The vector of Rust.
    pub fn into_std(self) -> ::std::vec::Vec<T> {
        self.0
    }

    /// A vector of Rust's.
    pub fn from_std(vec: ::std::vec::Vec<T>) -> Vec<T> {
        Vec(vec)
    }

    /// The allocator.
    pub fn allocator(&self) -> &Global {
        &Global
    }

    /// The number of elements that have memory.
    #[inline]
    pub fn capacity(&self) -> usize {
        self.0.capacity()
    }

    /// The elements.
    #[inline]
    pub fn as_slice(&self) -> &[T] {
        &self.0
    }

    /// The elements, to be changed.
    #[inline]
    pub fn as_mut_slice(&mut self) -> &mut [T] {
        &mut self.0
    }

    /// Appends an element, or gives it back.
    #[inline]
    pub fn push(&mut self, value: T) -> Result<(), AllocFailed<T>> {
        if self.0.len() == self.0.capacity() && self.0.try_reserve(1).is_err() {
            return Err(AllocFailed { value });
        }
        self.0.push(value);
        Ok(())
    }

    /// Appends an element if it has memory, or gives it back.
    #[inline]
    pub fn push_within_capacity(&mut self, value: T) -> Result<(), T> {
        if self.0.len() == self.0.capacity() {
            return Err(value);
        }
        self.0.push(value);
        Ok(())
    }

    /// Appends an element for which there is memory.
    #[inline]
    pub fn push_reserved(&mut self, value: T) {
        debug_assert!(self.0.len() < self.0.capacity());
        self.0.push(value);
    }

    /// Removes the last element.
    #[inline]
    pub fn pop(&mut self) -> Option<T> {
        self.0.pop()
    }

    /// Makes room for this many more elements.
    pub fn try_reserve(&mut self, additional: usize) -> Result<(), AllocError> {
        Ok(self.0.try_reserve(additional)?)
    }

    /// Makes room for this many more elements.
    pub fn reserve(&mut self, additional: usize) -> Result<(), AllocError> {
        self.try_reserve(additional)
    }

    /// Makes room for this many more elements, and no others.
    pub fn try_reserve_exact(&mut self, additional: usize) -> Result<(), AllocError> {
        Ok(self.0.try_reserve_exact(additional)?)
    }

    /// Frees memory beyond that of `capacity` elements.
    pub fn shrink_to(&mut self, capacity: usize) {
        self.0.shrink_to(capacity);
    }

    /// Removes the elements from `len` on.
    #[inline]
    pub fn truncate(&mut self, len: usize) {
        self.0.truncate(len);
    }

    /// Removes all elements.
    #[inline]
    pub fn clear(&mut self) {
        self.0.clear();
    }

    /// Inserts an element, or gives it back.
    pub fn insert(&mut self, index: usize, element: T) -> Result<(), AllocFailed<T>> {
        if self.0.len() == self.0.capacity() && self.0.try_reserve(1).is_err() {
            return Err(AllocFailed { value: element });
        }
        self.0.insert(index, element);
        Ok(())
    }

    /// Removes an element and moves those after it.
    pub fn remove(&mut self, index: usize) -> T {
        self.0.remove(index)
    }

    /// Removes an element and puts the last one there.
    pub fn swap_remove(&mut self, index: usize) -> T {
        self.0.swap_remove(index)
    }

    /// Keeps the elements of which `f` says so.
    pub fn retain<F: FnMut(&T) -> bool>(&mut self, f: F) {
        self.0.retain(f);
    }

    /// Removes elements that equal those before them by a key.
    pub fn dedup_by_key<K: PartialEq, F: FnMut(&mut T) -> K>(&mut self, key: F) {
        self.0.dedup_by_key(key);
    }

    /// Removes a range of elements.
    pub fn drain<R: ::std::ops::RangeBounds<usize>>(&mut self, range: R) -> ::std::vec::Drain<'_, T> {
        self.0.drain(range)
    }

    /// Appends the items of an iterator.
    pub fn extend<I: IntoIterator<Item = T>>(&mut self, items: I) -> Result<(), AllocError> {
        let items = items.into_iter();
        self.0.try_reserve(items.size_hint().0)?;
        for item in items {
            self.push(item)?;
        }
        Ok(())
    }

    /// Moves all elements of another vector to the end.
    pub fn append(&mut self, other: &mut Vec<T>) -> Result<(), AllocError> {
        self.0.try_reserve(other.len())?;
        self.0.append(&mut other.0);
        Ok(())
    }

    /// Sorts the elements; equal ones keep their order.
    pub fn sort(&mut self) -> Result<(), AllocError>
    where
        T: Ord,
    {
        sort::sort_by(&mut self.0, T::cmp)
    }

    /// Sorts the elements by an order; equal ones keep their order.
    pub fn sort_by<F: FnMut(&T, &T) -> Ordering>(&mut self, compare: F) -> Result<(), AllocError> {
        sort::sort_by(&mut self.0, compare)
    }

    /// Sorts the elements by a key; equal ones keep their order.
    pub fn sort_by_key<K: Ord, F: FnMut(&T) -> K>(&mut self, mut key: F) -> Result<(), AllocError> {
        sort::sort_by(&mut self.0, |a, b| key(a).cmp(&key(b)))
    }
}

impl<T: Copy> Vec<T> {
    /// Copies a slice.
    pub fn from_slice(alloc: Global, items: &[T]) -> Result<Vec<T>, AllocError> {
        let mut vec = Vec::with_capacity(alloc, items.len())?;
        vec.0.extend_from_slice(items);
        Ok(vec)
    }

    /// This many copies of an element.
    pub fn from_elem(alloc: Global, element: T, count: usize) -> Result<Vec<T>, AllocError> {
        let mut vec = Vec::with_capacity(alloc, count)?;
        vec.0.resize(count, element);
        Ok(vec)
    }

    /// Appends copies of elements.
    #[inline]
    pub fn extend_from_slice(&mut self, items: &[T]) -> Result<(), AllocError> {
        self.0.try_reserve(items.len())?;
        self.0.extend_from_slice(items);
        Ok(())
    }

    /// Appends copies of the elements of a range.
    pub fn extend_from_within(&mut self, range: ::std::ops::Range<usize>) -> Result<(), AllocError>
    where
        T: Copy,
    {
        self.0.try_reserve(range.len())?;
        self.0.extend_from_within(range);
        Ok(())
    }

    /// Removes the elements from `len` on, or appends copies of `value` up to `len`.
    pub fn resize(&mut self, len: usize, value: T) -> Result<(), AllocError> {
        self.0.try_reserve(len.saturating_sub(self.0.len()))?;
        self.0.resize(len, value);
        Ok(())
    }
}

impl<T: TryClone> TryClone for Vec<T> {
    fn try_clone(&self) -> Result<Vec<T>, AllocError> {
        let mut vec = Vec::with_capacity(Global, self.len())?;
        for item in self {
            vec.push(item.try_clone()?)?;
        }
        Ok(vec)
    }
}

// Without elements no memory is compared: where processors have AVX-512, glibc reads none of the bytes under a mask, and
// to suppress the fault at the address that Rust gives an empty slice takes the processor hundreds of cycles.
impl<T: PartialEq> PartialEq for Vec<T> {
    #[inline]
    fn eq(&self, other: &Vec<T>) -> bool {
        self.len() == other.len() && (self.is_empty() || self.0 == other.0)
    }
}

impl<T: Hash> Hash for Vec<T> {
    #[inline]
    fn hash<H: Hasher>(&self, state: &mut H) {
        self.0.hash(state);
    }
}

impl<T> Deref for Vec<T> {
    type Target = [T];

    #[inline]
    fn deref(&self) -> &[T] {
        &self.0
    }
}

impl<T> DerefMut for Vec<T> {
    #[inline]
    fn deref_mut(&mut self) -> &mut [T] {
        &mut self.0
    }
}

impl<T> AsRef<[T]> for Vec<T> {
    fn as_ref(&self) -> &[T] {
        &self.0
    }
}

impl<T> Borrow<[T]> for Vec<T> {
    fn borrow(&self) -> &[T] {
        &self.0
    }
}

impl<T: fmt::Debug> fmt::Debug for Vec<T> {
    fn fmt(&self, f: &mut fmt::Formatter<'_>) -> fmt::Result {
        self.0.fmt(f)
    }
}

impl<T> IntoIterator for Vec<T> {
    type Item = T;

    type IntoIter = ::std::vec::IntoIter<T>;

    fn into_iter(self) -> Self::IntoIter {
        self.0.into_iter()
    }
}

impl<'a, T> IntoIterator for &'a Vec<T> {
    type Item = &'a T;

    type IntoIter = slice::Iter<'a, T>;

    fn into_iter(self) -> Self::IntoIter {
        self.0.iter()
    }
}

impl<'a, T> IntoIterator for &'a mut Vec<T> {
    type Item = &'a mut T;

    type IntoIter = slice::IterMut<'a, T>;

    fn into_iter(self) -> Self::IntoIter {
        self.0.iter_mut()
    }
}

impl<T> FromIteratorIn<T> for Vec<T> {
    fn from_iter_in<I: Iterator<Item = T>>(alloc: Global, items: I) -> Result<Vec<T>, AllocError> {
        let mut vec = Vec::new(alloc);
        vec.extend(items)?;
        Ok(vec)
    }
}

impl io::Write for Vec<u8> {
    fn write(&mut self, buf: &[u8]) -> io::Result<usize> {
        self.extend_from_slice(buf)?;
        Ok(buf.len())
    }

    fn flush(&mut self) -> io::Result<()> {
        Ok(())
    }
}
