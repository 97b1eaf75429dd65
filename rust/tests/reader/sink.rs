//! Writers with a limit.

use crate::language::{Call, Output, Tested, error_kind, split_argument};
use dewikura::perfdata_listing::FlushPending;
use std::io::{Error, ErrorKind, Result, Write};

/// A writer that accepts a number of bytes, a number of bytes a write, and a number of flushes.
#[derive(Debug)]
pub struct Sink {
    pub written: Vec<u8>,
    max_per_write: usize,
    capacity: usize,
    /// The error of a write once the capacity is used; `None` if such a write accepts no bytes.
    error: Option<ErrorKind>,
    max_flushes: usize,
    writes: usize,
    /// The number of bytes written before each flush.
    pub flushed_at: Vec<usize>,
}

impl Sink {
    /// A writer that accepts everything.
    pub fn unlimited() -> Sink {
        Sink {
            written: Vec::new(),
            max_per_write: usize::MAX,
            capacity: usize::MAX,
            error: None,
            max_flushes: usize::MAX,
            writes: 0,
            flushed_at: Vec::new(),
        }
    }

    /// The writer of a case. `sink=fail-after(N)` accepts N bytes and then fails, with the kind `kind=KIND` or `StorageFull`.
    /// `sink=zero-after(N)` then accepts no more. A capacity of the call stands for N. `most=N` limits the bytes of a write, and
    /// `flushes=N` the number of flushes.
    pub fn from_call(call: &Call<'_>) -> Tested<Sink> {
        let (name, limit) = split_argument(call.case.option("sink").unwrap_or(""));
        let kind = error_kind(call.case.option("kind").unwrap_or("StorageFull"))?;
        Ok(Sink {
            max_per_write: call.case.size("most", usize::MAX)?,
            capacity: call.capacity.or(limit.parse().ok()).unwrap_or(usize::MAX),
            error: match name {
                "fail-after" => Some(kind),
                "zero-after" | "" => None,
                _ => return Err("an unknown sink".into()),
            },
            max_flushes: call.case.size("flushes", usize::MAX)?,
            ..Sink::unlimited()
        })
    }

    /// Appends the written text in quotes.
    pub fn push_text(&self, out: &mut Output) {
        out.push_line(&String::from_utf8_lossy(&self.written));
    }

    /// Appends the numbers of bytes, writes and flushes.
    pub fn push_counts(&self, out: &mut Output) {
        let (size, writes, flushes) = (self.written.len(), self.writes, self.flushed_at.len());
        writeln!(out, "{size} bytes, {writes} writes, {flushes} flushes");
    }
}

impl Write for Sink {
    fn write(&mut self, bytes: &[u8]) -> Result<usize> {
        self.writes += 1;
        let remaining = self.capacity - self.written.len();
        let count = bytes.len().min(self.max_per_write).min(remaining);
        match self.error {
            Some(kind) if count == 0 => Err(Error::from(kind)),
            _ => {
                self.written.extend_from_slice(&bytes[..count]);
                Ok(count)
            }
        }
    }

    fn flush(&mut self) -> Result<()> {
        if self.flushed_at.len() >= self.max_flushes {
            return Err(Error::from(ErrorKind::BrokenPipe));
        }
        self.flushed_at.push(self.written.len());
        Ok(())
    }
}

impl FlushPending for Sink {
    fn flush_pending(&mut self) -> Result<()> {
        self.flush()
    }
}
