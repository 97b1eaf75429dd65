//! Readers and writers. Those without a buffer are Rust's.

use super::alloc::Global;
use super::string::String;
use super::vec::Vec;

pub use ::std::io::{
    BufRead, Chain, Cursor, Empty, Error, ErrorKind, IsTerminal, Read, Result, Seek, SeekFrom, Take, Write, copy,
    empty,
};

/// The bytes of a buffer for which no capacity is given.
const DEFAULT_CAPACITY: usize = 8192;

/// The bytes that `append_all` reads at a time.
const CHUNK: usize = 8192;

/// A runtime that has standard input.
pub trait Input {
    type Reader: BufRead;

    /// Standard input.
    fn reader(&self) -> Self::Reader;
}

/// The methods of readers that append what they read.
pub trait ReadExt: Read + Sized {
    /// Appends all bytes up to the end, and returns their number.
    fn read_to_end_in(&mut self, bytes: &mut Vec<u8>) -> Result<usize> {
        append_all(self, bytes)
    }
}

impl<R: Read> ReadExt for R {}

/// Appends all bytes of a reader, and returns their number.
pub fn append_all<R: Read>(reader: &mut R, bytes: &mut Vec<u8>) -> Result<usize> {
    let mut chunk = [0; CHUNK];
    let mut total = 0;
    loop {
        match reader.read(&mut chunk) {
            Ok(0) => return Ok(total),
            Ok(count) => {
                bytes.extend_from_slice(&chunk[..count])?;
                total += count;
            }
            Err(error) if error.kind() == ErrorKind::Interrupted => {}
            Err(error) => return Err(error),
        }
    }
}

/// The text of a reader. Bytes that aren't UTF-8 are an error.
pub fn read_to_string<R: Read>(alloc: Global, mut reader: R) -> Result<String> {
    let mut bytes = Vec::new(alloc);
    append_all(&mut reader, &mut bytes)?;
    String::from_utf8(bytes).map_err(|_| Error::from(ErrorKind::InvalidData))
}

/// A reader with a buffer before it, which was allocated when it was made.
#[derive(Debug)]
pub struct BufReader<R> {
    inner: R,
    buffer: ::std::vec::Vec<u8>,
    // The bytes from `start` to `end` are buffered.
    start: usize,
    end: usize,
}

impl<R: Read> BufReader<R> {
    /// Puts a buffer before a reader.
    pub fn new(alloc: Global, inner: R) -> Result<BufReader<R>> {
        BufReader::with_capacity(alloc, DEFAULT_CAPACITY, inner)
    }

    /// Puts a buffer of this many bytes before a reader.
    pub fn with_capacity(_: Global, capacity: usize, inner: R) -> Result<BufReader<R>> {
        let mut buffer = ::std::vec::Vec::new();
        if buffer.try_reserve_exact(capacity).is_err() {
            return Err(Error::from(ErrorKind::OutOfMemory));
        }
        buffer.resize(capacity, 0);
        Ok(BufReader {
            inner,
            buffer,
            start: 0,
            end: 0,
        })
    }

    /// The bytes that were read from the reader and not from this.
    #[inline]
    pub fn buffer(&self) -> &[u8] {
        &self.buffer[self.start..self.end]
    }

    /// The number of bytes of the buffer.
    pub fn capacity(&self) -> usize {
        self.buffer.len()
    }

    /// The reader.
    pub fn get_ref(&self) -> &R {
        &self.inner
    }

    /// The reader, to be changed.
    pub fn get_mut(&mut self) -> &mut R {
        &mut self.inner
    }

    /// The reader. What is buffered is lost.
    pub fn into_inner(self) -> R {
        self.inner
    }

    // Reads into the buffer if nothing is buffered. After an error nothing is.
    fn fill(&mut self) -> Result<()> {
        if self.start < self.end {
            return Ok(());
        }
        self.discard();
        self.end = self.inner.read(&mut self.buffer)?;
        Ok(())
    }
}

impl<R> BufReader<R> {
    fn discard(&mut self) {
        self.start = 0;
        self.end = 0;
    }
}

impl<R: Read> Read for BufReader<R> {
    fn read(&mut self, buf: &mut [u8]) -> Result<usize> {
        if self.start == self.end && buf.len() >= self.buffer.len() {
            self.discard();
            return self.inner.read(buf);
        }
        self.fill()?;
        let count = buf.len().min(self.end - self.start);
        buf[..count].copy_from_slice(&self.buffer[self.start..self.start + count]);
        self.start += count;
        Ok(count)
    }
}

impl<R: Read> BufRead for BufReader<R> {
    fn fill_buf(&mut self) -> Result<&[u8]> {
        self.fill()?;
        Ok(self.buffer())
    }

    fn consume(&mut self, amount: usize) {
        self.start = self.end.min(self.start.saturating_add(amount));
    }
}

impl<R: Seek> BufReader<R> {
    /// Seeks from the position of the reader. Within the buffer the reader below isn't sought.
    pub fn seek_relative(&mut self, offset: i64) -> Result<()> {
        let distance = offset.unsigned_abs();
        if offset < 0 {
            if distance <= self.start as u64 {
                self.start -= distance as usize;
                return Ok(());
            }
        } else if distance <= (self.end - self.start) as u64 {
            self.start += distance as usize;
            return Ok(());
        }
        self.seek(SeekFrom::Current(offset))?;
        Ok(())
    }
}

// The reader below is ahead of this one by the buffered bytes.
impl<R: Seek> Seek for BufReader<R> {
    fn seek(&mut self, to: SeekFrom) -> Result<u64> {
        let mut target = to;
        if let SeekFrom::Current(offset) = to {
            let ahead = (self.end - self.start) as i64;
            match offset.checked_sub(ahead) {
                Some(rest) => target = SeekFrom::Current(rest),
                None => {
                    self.inner.seek(SeekFrom::Current(-ahead))?;
                    self.discard();
                }
            }
        }
        let position = self.inner.seek(target)?;
        self.discard();
        Ok(position)
    }

    fn seek_relative(&mut self, offset: i64) -> Result<()> {
        BufReader::seek_relative(self, offset)
    }
}

/// A writer with a buffer before it, which was allocated when it was made.
#[derive(Debug)]
pub struct BufWriter<W: Write> {
    inner: W,
    buffer: ::std::vec::Vec<u8>,
}

impl<W: Write> BufWriter<W> {
    /// Puts a buffer before a writer.
    pub fn new(alloc: Global, inner: W) -> Result<BufWriter<W>> {
        BufWriter::with_capacity(alloc, DEFAULT_CAPACITY, inner)
    }

    /// Puts a buffer of this many bytes before a writer.
    pub fn with_capacity(_: Global, capacity: usize, inner: W) -> Result<BufWriter<W>> {
        let mut buffer = ::std::vec::Vec::new();
        if buffer.try_reserve_exact(capacity).is_err() {
            return Err(Error::from(ErrorKind::OutOfMemory));
        }
        Ok(BufWriter { inner, buffer })
    }

    /// The bytes that were written to this and not to the writer.
    pub fn buffer(&self) -> &[u8] {
        &self.buffer
    }

    /// The writer.
    pub fn get_ref(&self) -> &W {
        &self.inner
    }

    /// The writer, to be changed.
    pub fn get_mut(&mut self) -> &mut W {
        &mut self.inner
    }

    // Writes what is buffered. What isn't written at an error stays buffered.
    fn flush_buffer(&mut self) -> Result<()> {
        let mut written = 0;
        let mut result = Ok(());
        while written < self.buffer.len() && result.is_ok() {
            match self.inner.write(&self.buffer[written..]) {
                Ok(0) => result = Err(Error::from(ErrorKind::WriteZero)),
                Ok(count) => written += count,
                Err(error) if error.kind() == ErrorKind::Interrupted => {}
                Err(error) => result = Err(error),
            }
        }
        self.buffer.drain(..written);
        result
    }

    fn has_room(&self, count: usize) -> bool {
        count <= self.buffer.capacity() - self.buffer.len()
    }
}

impl<W: Write> Write for BufWriter<W> {
    fn write(&mut self, buf: &[u8]) -> Result<usize> {
        if !self.has_room(buf.len()) {
            self.flush_buffer()?;
            if buf.len() >= self.buffer.capacity() {
                return self.inner.write(buf);
            }
        }
        self.buffer.extend_from_slice(buf);
        Ok(buf.len())
    }

    fn write_all(&mut self, buf: &[u8]) -> Result<()> {
        if !self.has_room(buf.len()) {
            self.flush_buffer()?;
            if buf.len() >= self.buffer.capacity() {
                return self.inner.write_all(buf);
            }
        }
        self.buffer.extend_from_slice(buf);
        Ok(())
    }

    fn flush(&mut self) -> Result<()> {
        self.flush_buffer()?;
        self.inner.flush()
    }
}

impl<W: Write> Drop for BufWriter<W> {
    fn drop(&mut self) {
        let _ = self.flush_buffer();
    }
}
