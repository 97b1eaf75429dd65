//! Clones that may fail.

use super::alloc::AllocError;

/// Rattle's `Clone`: a clone that fails when memory runs out.
pub trait TryClone: Sized {
    /// Returns an equal value.
    fn try_clone(&self) -> Result<Self, AllocError>;
}

macro_rules! copied {
    ($($name:ty),*) => {
        $(impl TryClone for $name {
            fn try_clone(&self) -> Result<$name, AllocError> {
                Ok(*self)
            }
        })*
    };
}

copied! { u8, u16, u32, u64, u128, usize, i8, i16, i32, i64, i128, isize, f32, f64, bool, char, () }

impl<T: ?Sized> TryClone for &T {
    fn try_clone(&self) -> Result<Self, AllocError> {
        Ok(self)
    }
}

impl<T: TryClone> TryClone for Option<T> {
    fn try_clone(&self) -> Result<Option<T>, AllocError> {
        self.as_ref().map(T::try_clone).transpose()
    }
}

impl<T: Copy, const N: usize> TryClone for [T; N] {
    fn try_clone(&self) -> Result<[T; N], AllocError> {
        Ok(*self)
    }
}

impl<A: TryClone, B: TryClone> TryClone for (A, B) {
    fn try_clone(&self) -> Result<(A, B), AllocError> {
        Ok((self.0.try_clone()?, self.1.try_clone()?))
    }
}
