//! The recorded threads.

use crate::convert;
use crate::inner;
use crate::linux_perf_event_reader::{Endianness, RawData};
use byteorder::{BigEndian, ByteOrder, LittleEndian};
use std::fmt;
use std::io;

// The size of the count before the entries, and that of an entry, in bytes.
const COUNT_SIZE: usize = 8;
const ENTRY_SIZE: usize = 24;

/// The recorded threads (`PERF_RECORD_THREAD_MAP` of perf).
#[derive(Clone, PartialEq, Eq)]
pub struct ThreadMap<'a> {
    endian: Endianness,
    // The count and the entries.
    body: RawData<'a>,
}

fn parse_in(endian: Endianness, body: RawData<'_>) -> io::Result<inner::ThreadMap<'_>> {
    let body = convert::inner_raw_data(body);
    match endian {
        Endianness::LittleEndian => inner::ThreadMap::parse::<LittleEndian>(body),
        Endianness::BigEndian => inner::ThreadMap::parse::<BigEndian>(body),
    }
}

impl<'a> ThreadMap<'a> {
    /// Parses a body: a count of eight bytes, and that many entries of 24 bytes, with numbers in the byte
    /// order `T`.
    ///
    /// It fails with `UnexpectedEof` if the count or the entries are truncated, and with `InvalidData` if the
    /// count is too large for any body.
    pub fn parse<T: ByteOrder>(data: RawData<'a>) -> Result<Self, io::Error> {
        let endian = convert::endian_of::<T>();
        let count = parse_in(endian, data)?.len();
        let mut rest = data;
        let body = rest.split_off_prefix(COUNT_SIZE + ENTRY_SIZE * count)?;
        Ok(Self { endian, body })
    }

    /// Returns the number of threads.
    pub fn len(&self) -> usize {
        self.body.len() / ENTRY_SIZE
    }

    /// Returns whether there are no threads.
    pub fn is_empty(&self) -> bool {
        self.len() == 0
    }

    /// Returns the threads in order.
    pub fn iter(&self) -> ThreadMapIter<'a> {
        ThreadMapIter {
            threads: parse_in(self.endian, self.body).ok().map(|map| map.iter()),
            count: self.len(),
        }
    }
}

/// Writes the number of threads.
impl fmt::Debug for ThreadMap<'_> {
    fn fmt(&self, f: &mut fmt::Formatter<'_>) -> fmt::Result {
        f.debug_struct("ThreadMap")
            .field("endian", &self.endian)
            .field("len", &self.len())
            .finish()
    }
}

/// A recorded thread.
#[derive(Clone, Copy, PartialEq, Eq)]
pub struct ThreadMapEntry<'a> {
    /// The thread.
    pub tid: u64,
    /// Its name, which perf usually leaves empty.
    pub name: RawData<'a>,
}

/// Writes the name as a text if it is UTF-8.
impl fmt::Debug for ThreadMapEntry<'_> {
    fn fmt(&self, f: &mut fmt::Formatter<'_>) -> fmt::Result {
        let name = self.name.as_slice();
        let mut map = f.debug_map();
        map.entry(&"tid", &self.tid);
        match std::str::from_utf8(&name) {
            Ok(name) => map.entry(&"name", &name),
            Err(_) => map.entry(&"name", &self.name),
        };
        map.finish()
    }
}

/// The recorded threads in order, from [`ThreadMap::iter`].
pub struct ThreadMapIter<'a> {
    threads: Option<inner::ThreadMapIter<'a>>,
    count: usize,
}

impl<'a> Iterator for ThreadMapIter<'a> {
    type Item = ThreadMapEntry<'a>;

    fn next(&mut self) -> Option<ThreadMapEntry<'a>> {
        let thread = self.threads.as_mut()?.next()?;
        Some(ThreadMapEntry {
            tid: thread.tid,
            name: convert::raw_data(thread.name),
        })
    }

    fn size_hint(&self) -> (usize, Option<usize>) {
        (0, Some(self.count))
    }
}
