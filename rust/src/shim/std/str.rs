//! Texts.

use super::alloc::{AllocError, Global};
use super::string::String;

pub use ::std::str::{Chars, FromStr, Utf8Error, from_utf8};

/// The methods of texts that take an allocator.
pub trait StrExt {
    /// The text with each `from` replaced.
    fn replace_in(&self, alloc: Global, from: &str, to: &str) -> Result<String, AllocError>;
}

impl StrExt for str {
    fn replace_in(&self, alloc: Global, from: &str, to: &str) -> Result<String, AllocError> {
        let mut text = String::new(alloc);
        let mut at = 0;
        for (start, found) in self.match_indices(from) {
            text.push_str(&self[at..start])?;
            text.push_str(to)?;
            at = start + found.len();
        }
        text.push_str(&self[at..])?;
        Ok(text)
    }
}
