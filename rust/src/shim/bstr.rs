//! Bytes that are mostly text.

use super::std::alloc::AllocError;
use super::std::string::String;

/// The methods of bytes as a text.
pub trait ByteSlice {
    /// Where a part is.
    fn find<B: AsRef<[u8]>>(&self, part: B) -> Option<usize>;

    /// Whether a part is in the bytes.
    fn contains_str<B: AsRef<[u8]>>(&self, part: B) -> bool {
        self.find(part).is_some()
    }

    /// The characters, with U+FFFD where the bytes aren't UTF-8.
    fn chars(&self) -> Chars<'_>;

    /// Appends the text, with U+FFFD where the bytes aren't UTF-8.
    fn to_str_lossy_into(&self, text: &mut String) -> Result<(), AllocError>;
}

impl ByteSlice for [u8] {
    fn find<B: AsRef<[u8]>>(&self, part: B) -> Option<usize> {
        ::memchr::memmem::find(self, part.as_ref())
    }

    fn chars(&self) -> Chars<'_> {
        Chars { bytes: self }
    }

    fn to_str_lossy_into(&self, text: &mut String) -> Result<(), AllocError> {
        text.push_utf8_lossy(self)
    }
}

/// The characters of bytes.
#[derive(Clone, Debug)]
pub struct Chars<'a> {
    bytes: &'a [u8],
}

impl Iterator for Chars<'_> {
    type Item = char;

    fn next(&mut self) -> Option<char> {
        let start = &self.bytes[..self.bytes.len().min(4)];
        let chunk = start.utf8_chunks().next()?;
        let (character, len) = match chunk.valid().chars().next() {
            Some(character) => (character, character.len_utf8()),
            None => (char::REPLACEMENT_CHARACTER, chunk.invalid().len()),
        };
        self.bytes = &self.bytes[len..];
        Some(character)
    }
}
