//! The allocator, and what it returns when memory runs out.

use super::clone::TryClone;
use ::std::fmt;
use ::std::io;

/// The allocator of the process.
#[derive(Clone, Copy, Debug, Default, PartialEq, Eq)]
pub struct Global;

/// Memory ran out.
#[derive(Clone, Copy, Debug, PartialEq, Eq)]
pub struct AllocError;

/// Memory ran out for a value, which is given back.
#[derive(Clone, Copy, PartialEq, Eq)]
pub struct AllocFailed<T> {
    pub value: T,
}

impl TryClone for Global {
    fn try_clone(&self) -> Result<Global, AllocError> {
        Ok(Global)
    }
}

impl TryClone for AllocError {
    fn try_clone(&self) -> Result<AllocError, AllocError> {
        Ok(AllocError)
    }
}

impl fmt::Display for AllocError {
    fn fmt(&self, f: &mut fmt::Formatter<'_>) -> fmt::Result {
        f.write_str("memory allocation failed")
    }
}

impl ::std::error::Error for AllocError {}

impl<T> fmt::Debug for AllocFailed<T> {
    fn fmt(&self, f: &mut fmt::Formatter<'_>) -> fmt::Result {
        f.write_str("AllocFailed(..)")
    }
}

impl<T> fmt::Display for AllocFailed<T> {
    fn fmt(&self, f: &mut fmt::Formatter<'_>) -> fmt::Result {
        fmt::Display::fmt(&AllocError, f)
    }
}

impl<T> ::std::error::Error for AllocFailed<T> {}

impl<T> From<AllocFailed<T>> for AllocError {
    fn from(_: AllocFailed<T>) -> AllocError {
        AllocError
    }
}

impl From<AllocError> for io::Error {
    fn from(_: AllocError) -> io::Error {
        io::Error::from(io::ErrorKind::OutOfMemory)
    }
}

impl<T> From<AllocFailed<T>> for io::Error {
    fn from(_: AllocFailed<T>) -> io::Error {
        io::Error::from(io::ErrorKind::OutOfMemory)
    }
}

impl From<AllocError> for fmt::Error {
    fn from(_: AllocError) -> fmt::Error {
        fmt::Error
    }
}

impl From<::std::collections::TryReserveError> for AllocError {
    fn from(_: ::std::collections::TryReserveError) -> AllocError {
        AllocError
    }
}
