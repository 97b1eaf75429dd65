//! Decimal digits.

/// The bytes of the longest number, `i128::MIN`.
const MAX_LEN: usize = 40;

/// The room for the text of a number.
#[derive(Clone, Copy, Debug)]
pub struct Buffer {
    bytes: [u8; MAX_LEN],
}

impl Default for Buffer {
    fn default() -> Buffer {
        Buffer::new()
    }
}

impl Buffer {
    /// An empty buffer.
    #[inline]
    pub fn new() -> Buffer {
        Buffer { bytes: [0; MAX_LEN] }
    }

    /// The text of a number.
    #[inline]
    pub fn format<I: Integer>(&mut self, n: I) -> &str {
        let start = n.write(&mut self.bytes);
        str::from_utf8(&self.bytes[start..]).unwrap_or_default()
    }
}

/// A number with decimal digits.
pub trait Integer: Copy {
    /// Writes the digits at the end of a buffer, and returns where they begin.
    fn write(self, bytes: &mut [u8; MAX_LEN]) -> usize;
}

macro_rules! unsigned {
    ($($name:ty),*) => {
        $(impl Integer for $name {
            #[inline]
            fn write(self, bytes: &mut [u8; MAX_LEN]) -> usize {
                write_digits(u64::from(self), bytes, MAX_LEN)
            }
        })*
    };
}

unsigned! { u8, u16, u32, u64 }

macro_rules! signed {
    ($($name:ty),*) => {
        $(impl Integer for $name {
            #[inline]
            fn write(self, bytes: &mut [u8; MAX_LEN]) -> usize {
                let start = write_digits(u64::from(self.unsigned_abs()), bytes, MAX_LEN);
                with_sign(self < 0, bytes, start)
            }
        })*
    };
}

signed! { i8, i16, i32, i64 }

impl Integer for usize {
    #[inline]
    fn write(self, bytes: &mut [u8; MAX_LEN]) -> usize {
        (self as u64).write(bytes)
    }
}

impl Integer for u128 {
    fn write(self, bytes: &mut [u8; MAX_LEN]) -> usize {
        let mut rest = self;
        let mut start = MAX_LEN;
        while start == MAX_LEN || rest > 0 {
            start -= 1;
            bytes[start] = b'0' + (rest % 10) as u8;
            rest /= 10;
        }
        start
    }
}

impl Integer for i128 {
    fn write(self, bytes: &mut [u8; MAX_LEN]) -> usize {
        let start = self.unsigned_abs().write(bytes);
        with_sign(self < 0, bytes, start)
    }
}

#[inline]
fn with_sign(is_negative: bool, bytes: &mut [u8; MAX_LEN], start: usize) -> usize {
    if !is_negative {
        return start;
    }
    bytes[start - 1] = b'-';
    start - 1
}

/// The number of digits of a number.
#[inline]
pub fn count_digits(n: u64) -> usize {
    // 1233 / 4096 is about the logarithm of 2 to the base 10.
    let bits = 64 - (n | 1).leading_zeros() as usize;
    let fewest = (bits * 1233) >> 12;
    fewest + usize::from(n >= POWERS[fewest])
}

/// Writes the digits of a number before the index `end`, and returns where they begin.
#[inline]
pub fn write_digits(n: u64, bytes: &mut [u8], end: usize) -> usize {
    let mut room = &mut bytes[..end];
    let mut rest = n;
    while rest >= 100 {
        room = put_last(room, PAIRS[(rest % 100) as usize]);
        rest /= 100;
    }
    if rest >= 10 {
        room = put_last(room, PAIRS[rest as usize]);
    } else {
        room = put_last(room, [b'0' + rest as u8]);
    }
    room.len()
}

// Puts digits at the end of the room, and returns what is left of it.
#[inline]
fn put_last<const N: usize>(room: &mut [u8], digits: [u8; N]) -> &mut [u8] {
    match room.split_last_chunk_mut() {
        Some((before, last)) => {
            *last = digits;
            before
        }
        None => unreachable!("the caller has room for the digits"),
    }
}

/// The digits of each number below 100.
const PAIRS: [[u8; 2]; 100] = {
    let mut pairs = [[0; 2]; 100];
    let mut number = 0;
    while number < 100 {
        pairs[number] = [b'0' + (number / 10) as u8, b'0' + (number % 10) as u8];
        number += 1;
    }
    pairs
};

/// The least number with more digits than the index, but for 0, which has one digit too.
const POWERS: [u64; 20] = {
    let mut powers = [0; 20];
    let mut index = 0;
    while index < 20 {
        powers[index] = 10_u64.pow(index as u32);
        index += 1;
    }
    powers[0] = 0;
    powers
};
