//! Formats.

pub use ::std::fmt::*;

/// The text of a value in `N` bytes, with three dots at the end if it is longer.
pub struct InlineText<const N: usize> {
    bytes: [u8; N],
    len: usize,
    is_truncated: bool,
}

impl<const N: usize> InlineText<N> {
    /// The text that a value prints.
    pub fn of<D: Display>(value: D) -> InlineText<N> {
        let mut text = InlineText {
            bytes: [0; N],
            len: 0,
            is_truncated: false,
        };
        if write(&mut text, format_args!("{value}")).is_err() && !text.is_truncated {
            text.end_in_dots();
        }
        text
    }

    /// The text.
    pub fn as_str(&self) -> &str {
        // Only whole characters are written.
        str::from_utf8(&self.bytes[..self.len]).unwrap_or_default()
    }

    // Makes the last characters three dots.
    fn end_in_dots(&mut self) {
        let kept = self.as_str().floor_char_boundary_of(N.saturating_sub(3));
        let dots = (N - kept).min(3);
        self.bytes[kept..kept + dots].fill(b'.');
        self.len = kept + dots;
        self.is_truncated = true;
    }
}

trait Boundary {
    fn floor_char_boundary_of(&self, at: usize) -> usize;
}

impl Boundary for str {
    // The last boundary of a character at or before `at`.
    fn floor_char_boundary_of(&self, at: usize) -> usize {
        (0..=at.min(self.len())).rev().find(|end| self.is_char_boundary(*end)).unwrap_or(0)
    }
}

impl<const N: usize> Write for InlineText<N> {
    fn write_str(&mut self, text: &str) -> Result {
        if self.is_truncated {
            return Err(Error);
        }
        let room = N - self.len;
        let taken = text.floor_char_boundary_of(room);
        self.bytes[self.len..self.len + taken].copy_from_slice(&text.as_bytes()[..taken]);
        self.len += taken;
        if taken < text.len() {
            self.end_in_dots();
            return Err(Error);
        }
        Ok(())
    }
}

impl<const N: usize> Display for InlineText<N> {
    fn fmt(&self, f: &mut Formatter<'_>) -> Result {
        f.write_str(self.as_str())
    }
}
