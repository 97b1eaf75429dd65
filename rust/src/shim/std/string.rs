//! Texts that grow.

use super::alloc::{AllocError, Global};
use super::clone::TryClone;
use super::iter::FromIteratorIn;
use super::vec::Vec;
use ::std::borrow::Borrow;
use ::std::fmt;
use ::std::hash::{Hash, Hasher};
use ::std::ops::Deref;
use ::std::str::Utf8Error;

/// Rust's string. Each method that allocates returns an error when memory runs out.
#[derive(Eq, PartialOrd, Ord)]
pub struct String(::std::string::String);

/// Bytes that aren't UTF-8.
#[derive(Debug)]
pub struct FromUtf8Error {
    bytes: Vec<u8>,
    error: Utf8Error,
}

impl FromUtf8Error {
    /// The bytes.
    pub fn into_bytes(self) -> Vec<u8> {
        self.bytes
    }

    /// Where they aren't UTF-8.
    pub fn utf8_error(&self) -> Utf8Error {
        self.error
    }
}

impl fmt::Display for FromUtf8Error {
    fn fmt(&self, f: &mut fmt::Formatter<'_>) -> fmt::Result {
        self.error.fmt(f)
    }
}

impl ::std::error::Error for FromUtf8Error {}

impl String {
    /// An empty text, which has allocated nothing.
    pub const fn new(_: Global) -> String {
        String(::std::string::String::new())
    }

    /// An empty text for this many bytes.
    pub fn with_capacity(alloc: Global, capacity: usize) -> Result<String, AllocError> {
        let mut text = String::new(alloc);
        text.0.try_reserve_exact(capacity)?;
        Ok(text)
    }

    /// Copies a text.
    pub fn from_str(alloc: Global, text: &str) -> Result<String, AllocError> {
        let mut copy = String::with_capacity(alloc, text.len())?;
        copy.0.push_str(text);
        Ok(copy)
    }

    /// The text of bytes, or the bytes if they aren't UTF-8.
    pub fn from_utf8(bytes: Vec<u8>) -> Result<String, FromUtf8Error> {
        match ::std::string::String::from_utf8(bytes.into_std()) {
            Ok(text) => Ok(String(text)),
            Err(error) => {
                let cause = error.utf8_error();
                let bytes = Vec::from_std(error.into_bytes());
                Err(FromUtf8Error { bytes, error: cause })
            }
        }
    }

    /// The text of bytes, with U+FFFD where they aren't UTF-8.
    pub fn from_utf8_lossy(alloc: Global, bytes: &[u8]) -> Result<String, AllocError> {
        let mut text = String::with_capacity(alloc, bytes.len())?;
        text.push_utf8_lossy(bytes)?;
        Ok(text)
    }

    // Appends bytes, with U+FFFD where they aren't UTF-8.
    pub(crate) fn push_utf8_lossy(&mut self, bytes: &[u8]) -> Result<(), AllocError> {
        for chunk in bytes.utf8_chunks() {
            self.push_str(chunk.valid())?;
            if !chunk.invalid().is_empty() {
                self.push(char::REPLACEMENT_CHARACTER)?;
            }
        }
        Ok(())
    }

    /// The string of Rust.
    pub fn into_std(self) -> ::std::string::String {
        self.0
    }

    /// A string of Rust's.
    pub fn from_std(text: ::std::string::String) -> String {
        String(text)
    }

    /// The text.
    #[inline]
    pub fn as_str(&self) -> &str {
        &self.0
    }

    /// The number of bytes that have memory.
    pub fn capacity(&self) -> usize {
        self.0.capacity()
    }

    /// The bytes of the text.
    pub fn into_bytes(self) -> Vec<u8> {
        Vec::from_std(self.0.into_bytes())
    }

    /// Appends a character.
    #[inline]
    pub fn push(&mut self, ch: char) -> Result<(), AllocError> {
        self.0.try_reserve(ch.len_utf8())?;
        self.0.push(ch);
        Ok(())
    }

    /// Appends a text.
    #[inline]
    pub fn push_str(&mut self, text: &str) -> Result<(), AllocError> {
        self.0.try_reserve(text.len())?;
        self.0.push_str(text);
        Ok(())
    }

    /// Makes room for this many more bytes.
    pub fn try_reserve(&mut self, additional: usize) -> Result<(), AllocError> {
        Ok(self.0.try_reserve(additional)?)
    }

    /// Removes all bytes.
    pub fn clear(&mut self) {
        self.0.clear();
    }

    /// Removes the bytes from `len` on.
    pub fn truncate(&mut self, len: usize) {
        self.0.truncate(len);
    }

    /// Appends a format, for `write!`. A value whose own `fmt` fails is out of memory here too.
    pub fn write_fmt(&mut self, format: fmt::Arguments<'_>) -> Result<(), AllocError> {
        fmt::Write::write_fmt(self, format).map_err(|_| AllocError)
    }
}

/// Makes a text of a format.
pub fn format(alloc: Global, format: fmt::Arguments<'_>) -> Result<String, AllocError> {
    let mut text = String::new(alloc);
    text.write_fmt(format)?;
    Ok(text)
}

/// The methods of printed values that take an allocator.
pub trait ToStringExt {
    /// The printed text.
    fn to_string_in(&self, alloc: Global) -> Result<String, AllocError>;
}

impl<T: fmt::Display + ?Sized> ToStringExt for T {
    fn to_string_in(&self, alloc: Global) -> Result<String, AllocError> {
        format(alloc, format_args!("{self}"))
    }
}

impl fmt::Write for String {
    fn write_str(&mut self, text: &str) -> fmt::Result {
        Ok(self.push_str(text)?)
    }
}

impl TryClone for String {
    fn try_clone(&self) -> Result<String, AllocError> {
        String::from_str(Global, self)
    }
}

// As for vectors, no bytes aren't compared.
impl PartialEq for String {
    #[inline]
    fn eq(&self, other: &String) -> bool {
        self.len() == other.len() && (self.is_empty() || self.0 == other.0)
    }
}

impl Hash for String {
    #[inline]
    fn hash<H: Hasher>(&self, state: &mut H) {
        self.0.hash(state);
    }
}

impl Deref for String {
    type Target = str;

    #[inline]
    fn deref(&self) -> &str {
        &self.0
    }
}

impl AsRef<str> for String {
    fn as_ref(&self) -> &str {
        &self.0
    }
}

impl AsRef<[u8]> for String {
    fn as_ref(&self) -> &[u8] {
        self.0.as_bytes()
    }
}

impl Borrow<str> for String {
    fn borrow(&self) -> &str {
        &self.0
    }
}

impl fmt::Display for String {
    fn fmt(&self, f: &mut fmt::Formatter<'_>) -> fmt::Result {
        self.0.fmt(f)
    }
}

impl fmt::Debug for String {
    fn fmt(&self, f: &mut fmt::Formatter<'_>) -> fmt::Result {
        self.0.fmt(f)
    }
}

impl FromIteratorIn<char> for String {
    fn from_iter_in<I: Iterator<Item = char>>(alloc: Global, items: I) -> Result<String, AllocError> {
        let mut text = String::new(alloc);
        for item in items {
            text.push(item)?;
        }
        Ok(text)
    }
}
