//! JSON, a token at a time.

use super::itoa;
use super::std::alloc::AllocError;
use super::std::fmt::InlineText;
use super::std::vec::Vec;
use ::std::fmt;

/// The fewest bytes that are made room for at a time, and the most beyond those that are needed.
const LEAST_AHEAD: usize = 128;
const MOST_AHEAD: usize = 16 * 1024;

/// Appends tokens to a buffer. It writes the commas and colons, and leaves the nesting to its caller. A call that fails
/// has written nothing.
pub struct Writer {
    // The first `len` bytes are written. The others are room, filled ahead so that a token needs one test.
    bytes: Vec<u8>,
    len: usize,
    is_after_value: bool,
}

impl Writer {
    /// A writer that appends to a buffer.
    pub fn new(out: Vec<u8>) -> Writer {
        Writer {
            len: out.len(),
            bytes: out,
            is_after_value: false,
        }
    }

    /// The buffer.
    pub fn into_inner(self) -> Vec<u8> {
        let mut bytes = self.bytes;
        bytes.truncate(self.len);
        bytes
    }

    /// `{`
    #[inline]
    pub fn begin_object(&mut self) -> Result<(), AllocError> {
        self.put(self.is_after_value, b"{", false)
    }

    /// `}`
    #[inline]
    pub fn end_object(&mut self) -> Result<(), AllocError> {
        self.put(false, b"}", true)
    }

    /// `[`
    #[inline]
    pub fn begin_array(&mut self) -> Result<(), AllocError> {
        self.put(self.is_after_value, b"[", false)
    }

    /// `]`
    #[inline]
    pub fn end_array(&mut self) -> Result<(), AllocError> {
        self.put(false, b"]", true)
    }

    /// The name of a member.
    #[inline]
    pub fn key(&mut self, name: &str) -> Result<(), AllocError> {
        self.quoted(name, b"\":", false)
    }

    /// A text.
    #[inline]
    pub fn string(&mut self, text: &str) -> Result<(), AllocError> {
        self.quoted(text, b"\"", true)
    }

    /// A number, of which the text is that of JSON.
    #[inline]
    pub fn number(&mut self, text: &str) -> Result<(), AllocError> {
        self.put(self.is_after_value, text.as_bytes(), true)
    }

    /// A number.
    #[inline]
    pub fn u64(&mut self, n: u64) -> Result<(), AllocError> {
        self.digits(false, n)
    }

    /// A number.
    #[inline]
    pub fn i64(&mut self, n: i64) -> Result<(), AllocError> {
        self.digits(n < 0, n.unsigned_abs())
    }

    /// The shortest number that reads back as `x`, with a sign at each exponent. `x` is finite.
    pub fn float_with_plus<F: fmt::LowerExp>(&mut self, x: F) -> Result<(), AllocError> {
        let digits = InlineText::<40>::of(format_args!("{x:e}"));
        let text = InlineText::<40>::of(Float(digits.as_str()));
        self.number(text.as_str())
    }

    /// `true` or `false`.
    #[inline]
    pub fn boolean(&mut self, b: bool) -> Result<(), AllocError> {
        let text: &[u8] = if b { b"true" } else { b"false" };
        self.put(self.is_after_value, text, true)
    }

    /// `null`
    #[inline]
    pub fn null(&mut self) -> Result<(), AllocError> {
        self.put(self.is_after_value, b"null", true)
    }

    // The next `count` bytes of the room.
    #[inline]
    fn room(&mut self, count: usize) -> Result<&mut [u8], AllocError> {
        if self.bytes.len() - self.len < count {
            self.grow(count)?;
        }
        Ok(&mut self.bytes[self.len..][..count])
    }

    #[cold]
    #[inline(never)]
    fn grow(&mut self, count: usize) -> Result<(), AllocError> {
        let ahead = count.max(self.bytes.len().clamp(LEAST_AHEAD, MOST_AHEAD));
        self.bytes.resize(self.len.checked_add(ahead).ok_or(AllocError)?, 0)
    }

    #[inline]
    fn put(&mut self, has_comma: bool, text: &[u8], is_value: bool) -> Result<(), AllocError> {
        let room = self.room(text.len() + 1)?;
        // The comma counts only where it is wanted.
        room[0] = b',';
        let start = usize::from(has_comma);
        copy_text(&mut room[start..][..text.len()], text);
        self.len += start + text.len();
        self.is_after_value = is_value;
        Ok(())
    }

    #[inline]
    fn digits(&mut self, is_negative: bool, n: u64) -> Result<(), AllocError> {
        let end = usize::from(self.is_after_value) + usize::from(is_negative) + itoa::count_digits(n);
        let room = self.room(end)?;
        room[0] = b',';
        let start = itoa::write_digits(n, room, end);
        if is_negative {
            room[start - 1] = b'-';
        }
        self.len += end;
        self.is_after_value = true;
        Ok(())
    }

    // A text in quotes; `close` is the second one, and the colon of a key.
    #[inline]
    fn quoted(&mut self, text: &str, close: &[u8], is_value: bool) -> Result<(), AllocError> {
        let text = text.as_bytes();
        if !is_plain(text) {
            return self.escaped(text, close, is_value);
        }
        let has_comma = self.is_after_value;
        let room = self.room(text.len() + close.len() + 2)?;
        room[0] = b',';
        let start = usize::from(has_comma);
        room[start] = b'"';
        let room = &mut room[start + 1..];
        copy_text(&mut room[..text.len()], text);
        room[text.len()..][..close.len()].copy_from_slice(close);
        self.len += start + 1 + text.len() + close.len();
        self.is_after_value = is_value;
        Ok(())
    }

    // The same, of a text in which some bytes are escaped.
    #[cold]
    #[inline(never)]
    fn escaped(&mut self, text: &[u8], close: &[u8], is_value: bool) -> Result<(), AllocError> {
        let (len, is_after_value) = (self.len, self.is_after_value);
        let written = self.append_escaped(text, close, is_value);
        if written.is_err() {
            self.len = len;
            self.is_after_value = is_after_value;
        }
        written
    }

    fn append_escaped(&mut self, text: &[u8], close: &[u8], is_value: bool) -> Result<(), AllocError> {
        self.put(self.is_after_value, b"\"", is_value)?;
        let mut rest = text;
        while let Some(plain) = rest.iter().position(|byte| needs_escape(*byte)) {
            self.put(false, &rest[..plain], is_value)?;
            self.escape(rest[plain], is_value)?;
            rest = &rest[plain + 1..];
        }
        self.put(false, rest, is_value)?;
        self.put(false, close, is_value)
    }

    fn escape(&mut self, byte: u8, is_value: bool) -> Result<(), AllocError> {
        let letter = match byte {
            b'"' | b'\\' => byte,
            8 => b'b',
            12 => b'f',
            b'\n' => b'n',
            b'\r' => b'r',
            b'\t' => b't',
            _ => {
                let digits = |value: u8| b"0123456789abcdef"[usize::from(value & 15)];
                return self.put(false, &[b'\\', b'u', b'0', b'0', digits(byte >> 4), digits(byte)], is_value);
            }
        };
        self.put(false, &[b'\\', letter], is_value)
    }
}

// Copies a text to a place of its length. A short one is two copies of a fixed size, which may overlap.
#[inline]
fn copy_text(to: &mut [u8], text: &[u8]) {
    match text.len() {
        0 => {}
        1 => copy_ends::<1>(to, text),
        2..4 => copy_ends::<2>(to, text),
        4..8 => copy_ends::<4>(to, text),
        8..16 => copy_ends::<8>(to, text),
        16..32 => copy_ends::<16>(to, text),
        _ => to.copy_from_slice(text),
    }
}

#[inline]
fn copy_ends<const N: usize>(to: &mut [u8], text: &[u8]) {
    if let (Some(to), Some(first)) = (to.first_chunk_mut::<N>(), text.first_chunk()) {
        *to = *first;
    }
    if let (Some(to), Some(last)) = (to.last_chunk_mut::<N>(), text.last_chunk()) {
        *to = *last;
    }
}

#[inline]
fn needs_escape(byte: u8) -> bool {
    byte < 0x20 || byte == b'"' || byte == b'\\'
}

// Whether no byte of a text is escaped.
#[inline]
fn is_plain(text: &[u8]) -> bool {
    let (words, _) = text.as_chunks();
    if let Some(last) = text.last_chunk() {
        let found = words.iter().fold(escapes(*last), |found, word| found | escapes(*word));
        return found == 0;
    }
    if let (Some([a, b, c, d]), Some([e, f, g, h])) = (text.first_chunk(), text.last_chunk()) {
        return escapes([*a, *b, *c, *d, *e, *f, *g, *h]) == 0;
    }
    !text.iter().any(|byte| needs_escape(*byte))
}

// A number that isn't 0 if one of 8 bytes is escaped: one that is less than 0x20, or 0 without the bits of a quote or a
// backslash.
#[inline]
fn escapes(bytes: [u8; 8]) -> u64 {
    const ONES: u64 = 0x0101_0101_0101_0101;
    let word = u64::from_le_bytes(bytes);
    let below = |word: u64, limit: u64| word.wrapping_sub(ONES * limit) & !word;
    let quote = word ^ (ONES * 0x22);
    let backslash = word ^ (ONES * 0x5c);
    (below(word, 0x20) | below(quote, 1) | below(backslash, 1)) & (ONES << 7)
}

// A number in JSON, from Rust's form `d.ddde-n`: without an exponent where that has few zeros.
struct Float<'a>(&'a str);

impl fmt::Display for Float<'_> {
    fn fmt(&self, f: &mut fmt::Formatter<'_>) -> fmt::Result {
        let (sign, rest) = match self.0.strip_prefix('-') {
            Some(rest) => ("-", rest),
            None => ("", self.0),
        };
        let (mantissa, exponent) = rest.split_once('e').unwrap_or((rest, "0"));
        let exponent: i32 = exponent.parse().unwrap_or(0);
        let (first, others) = mantissa.split_once('.').unwrap_or((mantissa, ""));
        f.write_str(sign)?;
        if !(-5..16).contains(&exponent) {
            let point = if others.is_empty() { "" } else { "." };
            return write!(f, "{first}{point}{others}e{exponent:+}");
        }
        if exponent < 0 {
            let zeros = (-exponent - 1) as usize;
            return write!(f, "0.{:0<zeros$}{first}{others}", "");
        }
        let whole = exponent as usize;
        if others.len() > whole {
            return write!(f, "{first}{}.{}", &others[..whole], &others[whole..]);
        }
        write!(f, "{first}{others:0<whole$}.0")
    }
}

/// Whether a text is a number of JSON.
pub fn is_number(text: &str) -> bool {
    let rest = text.strip_prefix('-').unwrap_or(text);
    let whole = rest.len() - rest.trim_start_matches(|c: char| c.is_ascii_digit()).len();
    if whole == 0 || (whole > 1 && rest.starts_with('0')) {
        return false;
    }
    let Some(rest) = after_fraction(&rest[whole..]) else {
        return false;
    };
    match rest.strip_prefix(['e', 'E']) {
        Some(exponent) => is_digits(exponent.strip_prefix(['+', '-']).unwrap_or(exponent)),
        None => rest.is_empty(),
    }
}

// What is after a fraction, if there is one. `None` for a point without digits.
fn after_fraction(text: &str) -> Option<&str> {
    let Some(fraction) = text.strip_prefix('.') else {
        return Some(text);
    };
    let rest = fraction.trim_start_matches(|c: char| c.is_ascii_digit());
    (rest.len() < fraction.len()).then_some(rest)
}

fn is_digits(text: &str) -> bool {
    !text.is_empty() && text.bytes().all(|byte| byte.is_ascii_digit())
}
