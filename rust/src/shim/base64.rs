//! Base64.

/// The engine that is there.
pub mod engine {
    pub mod general_purpose {
        use super::super::Engine;

        /// The standard alphabet, with padding.
        pub const STANDARD: Engine = Engine;
    }
}

use super::std::alloc::AllocError;
use super::std::string::String;

const ALPHABET: &[u8; 64] = b"ABCDEFGHIJKLMNOPQRSTUVWXYZabcdefghijklmnopqrstuvwxyz0123456789+/";

/// Writes bytes in an alphabet of 64 characters.
#[derive(Clone, Copy, Debug)]
pub struct Engine;

impl Engine {
    /// Appends the characters of bytes, four for three bytes.
    pub fn encode_string<T: AsRef<[u8]>>(&self, input: T, output: &mut String) -> Result<(), AllocError> {
        let input = input.as_ref();
        output.try_reserve(input.len().div_ceil(3).saturating_mul(4))?;
        for chunk in input.chunks(3) {
            let byte = |index: usize| u32::from(chunk.get(index).copied().unwrap_or(0));
            let bits = byte(0) << 16 | byte(1) << 8 | byte(2);
            for index in 0..4 {
                let is_padding = index > chunk.len();
                let digit = ALPHABET[(bits >> (18 - 6 * index)) as usize & 63];
                output.push(if is_padding { '=' } else { char::from(digit) })?;
            }
        }
        Ok(())
    }
}
