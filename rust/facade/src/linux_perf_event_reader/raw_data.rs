//! Bytes in one slice or in two.

use crate::convert::{self, endian_of};
use crate::inner;
use crate::linux_perf_event_reader::Endianness;
use byteorder::ByteOrder;
use std::borrow::Cow;
use std::fmt;
use std::io;
use std::ops::Range;

/// Bytes in one slice or in two, as in a buffer that wraps. Methods see one sequence of bytes.
#[derive(Clone, Copy, PartialEq, Eq)]
pub enum RawData<'a> {
    /// All bytes in one slice.
    Single(&'a [u8]),
    /// The bytes of the first slice, then those of the second.
    Split(&'a [u8], &'a [u8]),
}

impl<'a> From<&'a [u8]> for RawData<'a> {
    fn from(bytes: &'a [u8]) -> Self {
        RawData::Single(bytes)
    }
}

impl<'a> From<&'a Cow<'a, [u8]>> for RawData<'a> {
    fn from(bytes: &'a Cow<'a, [u8]>) -> Self {
        RawData::Single(bytes)
    }
}

/// Writes the lengths of the slices.
impl fmt::Debug for RawData<'_> {
    fn fmt(&self, f: &mut fmt::Formatter<'_>) -> fmt::Result {
        match self {
            RawData::Single(all) => write!(f, "RawData::Single( [u8; {}] )", all.len()),
            RawData::Split(first, second) => write!(
                f,
                "RawData::Split( [u8; {}], [u8; {}] )",
                first.len(),
                second.len()
            ),
        }
    }
}

impl<'a> RawData<'a> {
    /// Returns no bytes.
    #[inline]
    pub fn empty() -> Self {
        RawData::Single(&[])
    }

    // Does what a method of the library does, and keeps what remains of the bytes.
    #[inline]
    fn with<T>(&mut self, read: impl FnOnce(&mut inner::RawData<'a>) -> T) -> T {
        let mut bytes = convert::inner_raw_data(*self);
        let result = read(&mut bytes);
        *self = convert::raw_data(bytes);
        result
    }

    /// Fills `buf` with the first bytes, and removes them.
    ///
    /// If there are fewer, it fails with `UnexpectedEof`, and nothing changes.
    pub fn read_exact(&mut self, buf: &mut [u8]) -> Result<(), io::Error> {
        self.with(|bytes| bytes.read_exact(buf))
    }

    fn read_array<const N: usize>(&mut self) -> Result<[u8; N], io::Error> {
        let mut bytes = [0; N];
        self.read_exact(&mut bytes)?;
        Ok(bytes)
    }

    /// Removes the first eight bytes, and returns the number that they contain.
    ///
    /// If there are fewer, it fails with `UnexpectedEof` and removes none.
    pub fn read_u64<T: ByteOrder>(&mut self) -> Result<u64, io::Error> {
        Ok(T::read_u64(&self.read_array::<8>()?))
    }

    /// Removes the first four bytes, and returns the number that they contain.
    ///
    /// If there are fewer, it fails with `UnexpectedEof` and removes none.
    pub fn read_u32<T: ByteOrder>(&mut self) -> Result<u32, io::Error> {
        Ok(T::read_u32(&self.read_array::<4>()?))
    }

    /// Removes the first four bytes, and returns the signed number that they contain.
    ///
    /// If there are fewer, it fails with `UnexpectedEof` and removes none.
    pub fn read_i32<T: ByteOrder>(&mut self) -> Result<i32, io::Error> {
        Ok(T::read_i32(&self.read_array::<4>()?))
    }

    /// Removes the first two bytes, and returns the number that they contain.
    ///
    /// If there are fewer, it fails with `UnexpectedEof` and removes none.
    pub fn read_u16<T: ByteOrder>(&mut self) -> Result<u16, io::Error> {
        Ok(T::read_u16(&self.read_array::<2>()?))
    }

    /// Removes the first byte, and returns it.
    ///
    /// If there is none, it fails with `UnexpectedEof`.
    pub fn read_u8(&mut self) -> Result<u8, io::Error> {
        Ok(self.read_array::<1>()?[0])
    }

    /// Removes the bytes up to the first NUL, and returns those before the NUL.
    ///
    /// If there is no NUL, it returns `None` and removes none.
    pub fn read_string(&mut self) -> Option<RawData<'a>> {
        self.with(|bytes| bytes.read_string())
            .map(convert::raw_data)
    }

    /// Removes the first `n` bytes, and returns them.
    ///
    /// If there are fewer, it fails with `UnexpectedEof` and removes none.
    pub fn split_off_prefix(&mut self, n: usize) -> Result<Self, io::Error> {
        self.with(|bytes| bytes.split_off_prefix(n))
            .map(convert::raw_data)
    }

    /// Removes the first `n` bytes.
    ///
    /// If there are fewer, it fails with `UnexpectedEof` and removes none.
    pub fn skip(&mut self, n: usize) -> Result<(), io::Error> {
        self.with(|bytes| bytes.skip(n))
    }

    /// Returns the bytes in one slice. It copies them only if they are in two.
    pub fn as_slice(&self) -> Cow<'a, [u8]> {
        match *self {
            RawData::Single(all) => Cow::Borrowed(all),
            RawData::Split(first, second) => Cow::Owned([first, second].concat()),
        }
    }

    /// Returns the bytes of a range, or `None` if the range isn't within the bytes.
    pub fn get(&self, range: Range<usize>) -> Option<RawData<'a>> {
        convert::inner_raw_data(*self)
            .get(range)
            .map(convert::raw_data)
    }

    /// Returns whether there are no bytes.
    pub fn is_empty(&self) -> bool {
        self.len() == 0
    }

    /// Returns the number of bytes.
    pub fn len(&self) -> usize {
        match self {
            RawData::Single(all) => all.len(),
            RawData::Split(first, second) => first.len() + second.len(),
        }
    }
}

/// Returns whether the byte order `T` isn't that of this machine.
pub fn is_swapped_endian<T: ByteOrder>() -> bool {
    endian_of::<T>() != Endianness::NATIVE
}

/// Numbers of eight bytes each. Bytes after the last whole number are ignored.
#[derive(Clone, Copy, PartialEq, Eq)]
pub struct RawDataU64<'a> {
    endian: Endianness,
    bytes: RawData<'a>,
}

impl<'a> From<inner::RawDataU64<'a>> for RawDataU64<'a> {
    #[inline]
    fn from(numbers: inner::RawDataU64<'a>) -> Self {
        RawDataU64 {
            endian: convert::endian(numbers.endian),
            bytes: convert::raw_data(numbers.bytes),
        }
    }
}

impl<'a> RawDataU64<'a> {
    /// Returns the numbers in bytes, in the byte order `T`.
    #[inline]
    pub fn from_raw_data<T: ByteOrder>(raw_data: RawData<'a>) -> Self {
        RawDataU64 {
            endian: endian_of::<T>(),
            bytes: raw_data,
        }
    }

    /// Returns whether there are no bytes.
    pub fn is_empty(&self) -> bool {
        self.bytes.is_empty()
    }

    /// Returns the number of numbers.
    pub fn len(&self) -> usize {
        self.bytes.len() / 8
    }

    /// Returns the number at an index, or `None` if there are no more numbers than `index`.
    #[inline]
    pub fn get(&self, index: usize) -> Option<u64> {
        if index >= self.len() {
            return None;
        }
        if let RawData::Single(all) = self.bytes {
            let number = all.get(8 * index..)?.first_chunk()?;
            return Some(u64_in(self.endian, *number));
        }
        let mut bytes = self.bytes.get(8 * index..8 * index + 8)?;
        Some(u64_in(self.endian, bytes.read_array().ok()?))
    }
}

/// Writes the numbers in hexadecimal.
impl fmt::Debug for RawDataU64<'_> {
    fn fmt(&self, f: &mut fmt::Formatter<'_>) -> fmt::Result {
        f.debug_list()
            .entries((0..self.len()).filter_map(|index| self.get(index).map(Hex)))
            .finish()
    }
}

// The number in eight bytes.
#[inline]
fn u64_in(endian: Endianness, bytes: [u8; 8]) -> u64 {
    match endian {
        Endianness::LittleEndian => u64::from_le_bytes(bytes),
        Endianness::BigEndian => u64::from_be_bytes(bytes),
    }
}

// A number that is written with 16 hexadecimal digits.
pub(crate) struct Hex(pub(crate) u64);

impl fmt::Debug for Hex {
    fn fmt(&self, f: &mut fmt::Formatter<'_>) -> fmt::Result {
        write!(f, "0x{:016X}", self.0)
    }
}
