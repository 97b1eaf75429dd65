//! Values that only clauses read.

use ::std::marker::PhantomData;

/// A `T` as clauses see it. It has no bytes.
pub struct Snapshot<T> {
    marker: PhantomData<fn() -> T>,
}

impl<T> Snapshot<T> {
    /// The value that clauses see.
    pub fn of(_: &T) -> Snapshot<T> {
        Snapshot { marker: PhantomData }
    }
}
