//! The types that the library takes in place of Rust's own.

pub use dewikura::shim::byteorder::{BigEndian, LittleEndian};
pub use dewikura::shim::std::alloc::Global;
pub use dewikura::shim::std::io::BufReader;
pub use dewikura::shim::std::string::String as LibraryString;
pub use dewikura::shim::std::vec::Vec as LibraryVec;

/// A vector of the library with these values.
pub fn vec<T: Clone>(values: &[T]) -> LibraryVec<T> {
    LibraryVec::from_std(values.to_vec())
}

/// A text of the library.
pub fn string(text: &str) -> LibraryString {
    LibraryString::from_std(text.to_string())
}
