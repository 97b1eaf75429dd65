//! What each module of the sources imports.

pub use super::std::clone::TryClone;
pub use super::std::fmt::Write as _;
pub use super::std::iter::IteratorExt;
pub use super::std::marker::Drop;
pub use super::std::rt::{Alloc, AllocGlobal, HostRuntime};
pub use super::std::slice::{ConcatExt, SliceExt};
pub use super::std::str::StrExt;
pub use super::std::io::ReadExt;
pub use super::std::string::{String, ToStringExt};
pub use super::std::vec::Vec;
