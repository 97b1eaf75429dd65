//! A reader as a source of the library.

use crate::inner;
use std::collections::TryReserveError;
use std::io::{self, Read, Seek, SeekFrom};

// The number of bytes that are read at once.
const BUFFER_SIZE: usize = 64 * 1024;

/// A reader with a buffer, from which the library copies the parts of a record.
///
/// It reads only if the buffer is empty, and then once: from a pipe, it never waits for more bytes than the
/// library asked for.
pub(crate) struct Buffered<R> {
    reader: R,
    buffer: Vec<u8>,
    // The unread bytes are `buffer[start..end]`.
    start: usize,
    end: usize,
    // The reader's position, which is that of `buffer[end]`, once a seek has returned it.
    position: Option<u64>,
}

impl<R: Read> Buffered<R> {
    pub(crate) fn new(reader: R) -> Result<Self, TryReserveError> {
        let mut buffer = Vec::new();
        buffer.try_reserve_exact(BUFFER_SIZE)?;
        buffer.resize(BUFFER_SIZE, 0);
        Ok(Buffered {
            reader,
            buffer,
            start: 0,
            end: 0,
            position: None,
        })
    }

    fn read_reader(&mut self, place: &mut [u8]) -> io::Result<usize> {
        let count = self.reader.read(place)?.min(place.len());
        self.position = self.position.and_then(|at| at.checked_add(count as u64));
        Ok(count)
    }

    // Reads into the empty buffer.
    fn fill(&mut self) -> io::Result<()> {
        self.start = 0;
        self.end = 0;
        let count = self.reader.read(&mut self.buffer)?.min(self.buffer.len());
        self.position = self.position.and_then(|at| at.checked_add(count as u64));
        self.end = count;
        Ok(())
    }

    // Removes the first `count` buffered bytes, if that many are buffered.
    #[inline]
    fn take(&mut self, count: usize) -> Option<&[u8]> {
        if self.end - self.start < count {
            return None;
        }
        let start = self.start;
        self.start += count;
        Some(&self.buffer[start..start + count])
    }
}

impl<R: Read> inner::Source for Buffered<R> {
    fn read_front(&mut self, place: &mut [u8]) -> io::Result<usize> {
        if self.start == self.end {
            if place.len() >= self.buffer.len() {
                return self.read_reader(place);
            }
            if !place.is_empty() {
                self.fill()?;
            }
        }
        let count = place.len().min(self.end - self.start);
        if let Some(bytes) = self.take(count) {
            place[..count].copy_from_slice(bytes);
        }
        Ok(count)
    }

    #[inline]
    fn buffer(&self) -> &[u8] {
        &self.buffer[self.start..self.end]
    }

    #[inline]
    fn read_buffered(&mut self, buf: &mut [u8]) -> bool {
        match self.take(buf.len()) {
            Some(bytes) => {
                buf.copy_from_slice(bytes);
                true
            }
            None => false,
        }
    }

    #[inline]
    fn append_buffered(
        &mut self,
        buffer: &mut inner::OwnVec<u8>,
        count: usize,
    ) -> Result<bool, inner::AllocError> {
        if self.end - self.start < count {
            return Ok(false);
        }
        buffer.extend_from_slice(&self.buffer[self.start..self.start + count])?;
        self.start += count;
        Ok(true)
    }
}

impl<R: Read + Seek> Buffered<R> {
    // A reader whose position is known, if it can tell it.
    pub(crate) fn with_position(mut reader: R) -> Result<Self, TryReserveError> {
        let position = reader.stream_position().ok();
        let buffered = Buffered::new(reader)?;
        Ok(Buffered {
            position,
            ..buffered
        })
    }

    // The target of a seek, if it and the position are known.
    fn target(&self, to: SeekFrom) -> Option<u64> {
        match to {
            SeekFrom::Start(target) => Some(target),
            SeekFrom::Current(offset) => {
                let unread = (self.end - self.start) as u64;
                let here = self.position?.checked_sub(unread)?;
                here.checked_add_signed(offset)
            }
            SeekFrom::End(_) => None,
        }
    }

    // Moves to a target in the buffer. `false` if it isn't there.
    fn seek_in_buffer(&mut self, target: u64) -> bool {
        let Some(back) = self.position.and_then(|end| end.checked_sub(target)) else {
            return false;
        };
        match usize::try_from(back) {
            Ok(back) if back <= self.end => {
                self.start = self.end - back;
                true
            }
            _ => false,
        }
    }
}

impl<R: Read + Seek> inner::PlacedSource for Buffered<R> {
    fn seek_to(&mut self, to: SeekFrom) -> io::Result<u64> {
        let target = self.target(to);
        if let Some(target) = target
            && self.seek_in_buffer(target)
        {
            return Ok(target);
        }
        let to = match (target, to) {
            (Some(target), _) => SeekFrom::Start(target),
            (None, SeekFrom::Current(offset)) => {
                let unread = (self.end - self.start) as i64;
                SeekFrom::Current(offset.saturating_sub(unread))
            }
            (None, to) => to,
        };
        self.start = 0;
        self.end = 0;
        self.position = None;
        let at = self.reader.seek(to)?;
        self.position = Some(at);
        Ok(at)
    }
}
