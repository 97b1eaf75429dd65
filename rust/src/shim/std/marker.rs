//! Marker traits.

pub use ::std::marker::{Copy, PhantomData, Send, Sized, Sync};

/// A type whose values may be dropped. In Rust each is.
pub trait Drop {}

impl<T: ?Sized> Drop for T {}
