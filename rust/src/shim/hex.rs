//! Hexadecimal digits.

use super::std::alloc::{AllocError, Global};
use super::std::string::String;

/// Why digits can't be written.
#[derive(Clone, Copy, Debug, PartialEq, Eq)]
pub enum FromHexError {
    /// There isn't room for two digits of each byte, or for more.
    InvalidStringLength,
}

/// The digits of bytes, two for each.
pub fn encode<T: AsRef<[u8]>>(alloc: Global, data: T) -> Result<String, AllocError> {
    let bytes = data.as_ref();
    let mut text = String::with_capacity(alloc, bytes.len().saturating_mul(2))?;
    for byte in bytes {
        text.push(char::from(digit(byte >> 4)))?;
        text.push(char::from(digit(byte & 15)))?;
    }
    Ok(text)
}

/// Writes the digits of bytes into `out`, which has just that length.
#[inline]
pub fn encode_to_slice<T: AsRef<[u8]>>(data: T, out: &mut [u8]) -> Result<(), FromHexError> {
    let bytes = data.as_ref();
    if bytes.len().checked_mul(2) != Some(out.len()) {
        return Err(FromHexError::InvalidStringLength);
    }
    for (pair, byte) in out.chunks_exact_mut(2).zip(bytes) {
        pair[0] = digit(byte >> 4);
        pair[1] = digit(byte & 15);
    }
    Ok(())
}

// By arithmetic, which several digits share, as a table isn't.
#[inline]
fn digit(value: u8) -> u8 {
    value + if value < 10 { b'0' } else { b'a' - 10 }
}
