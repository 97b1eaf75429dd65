//! A reader of jitdump files.

use crate::convert;
use crate::inner;
use crate::jitdump::{
    JitDumpError, JitDumpHeader, JitDumpRawRecord, JitDumpRecordHeader, JitDumpRecordType,
};
use crate::linux_perf_event_reader::Endianness;
use std::fmt;
use std::io::{self, Read, Seek};

/// A reader that returns the records of a jitdump file one by one, also while the file grows. It has a buffer
/// of its own; the reader below needs none.
///
/// `Ok(None)` means that the next record isn't complete yet. No byte is lost by it, nor by an error of the
/// reader, and the call can be repeated.
pub struct JitDumpReader<R: Read> {
    reader: inner::jit::JitDumpReader<inner::Counted<R>>,
    header: JitDumpHeader,
}

impl<R: Read> JitDumpReader<R> {
    /// Opens a jitdump file, with a buffer of 4,096 bytes.
    ///
    /// The errors are those of [`JitDumpReader::new_with_buffer_size`].
    pub fn new(reader: R) -> Result<Self, JitDumpError> {
        Self::new_with_buffer_size(reader, inner::jit::DEFAULT_BUFFER_SIZE)
    }

    /// Opens a jitdump file, with a buffer of this many bytes, in which its header must fit.
    ///
    /// It fails with the errors of [`JitDumpHeader::parse`], and with [`JitDumpError::Io`] if the reader fails
    /// or memory runs out.
    pub fn new_with_buffer_size(reader: R, buffer_size: usize) -> Result<Self, JitDumpError> {
        let source = inner::Counted::new(reader);
        let reader =
            inner::jit::JitDumpReader::new_with_buffer_size(inner::Global, source, buffer_size)?;
        let header = JitDumpHeader::of(reader.header());
        Ok(Self { reader, header })
    }

    /// Returns the header of the file.
    pub fn header(&self) -> &JitDumpHeader {
        &self.header
    }

    /// Returns the byte order of the file.
    pub fn endian(&self) -> Endianness {
        convert::endian(self.reader.endian())
    }

    /// Returns the header of the next record, or `Ok(None)` if its 16 bytes aren't there yet.
    ///
    /// It fails with the reader's own error, and the call can be repeated. After a failed seek, it fails with
    /// kind `Other`.
    pub fn next_record_header(&mut self) -> Result<Option<JitDumpRecordHeader>, io::Error> {
        Ok(self.reader.next_record_header()?.map(Into::into))
    }

    /// Returns the time of the next record, as [`JitDumpReader::next_record_header`] does. Its body may not
    /// be there yet.
    pub fn next_record_timestamp(&mut self) -> Result<Option<u64>, io::Error> {
        self.reader.next_record_timestamp()
    }

    /// Returns the type of the next record, as [`JitDumpReader::next_record_header`] does.
    pub fn next_record_type(&mut self) -> Result<Option<JitDumpRecordType>, io::Error> {
        let record_type = self.reader.next_record_type()?;
        Ok(record_type.map(|record_type| JitDumpRecordType(record_type.0)))
    }

    /// Returns the offset of the next record in the file, in bytes.
    pub fn next_record_offset(&self) -> u64 {
        self.reader.next_record_offset()
    }

    /// Returns the next record, or `Ok(None)` if it isn't complete yet. The record borrows the reader until
    /// the next call.
    ///
    /// It fails with `InvalidData` if the size of the record is below 16, with `OutOfMemory` if memory runs
    /// out for a body that is longer than the buffer, and as [`JitDumpReader::next_record_header`] does.
    pub fn next_record(&mut self) -> Result<Option<JitDumpRawRecord<'_>>, io::Error> {
        Ok(self.reader.next_record()?.map(Into::into))
    }
}

impl<R: Read + Seek> JitDumpReader<R> {
    /// Skips the next record without reading its body. `Ok(false)` means that it isn't complete yet, and it
    /// stays the next one.
    ///
    /// The errors are those of [`JitDumpReader::next_record`], and those of a seek. After a failed seek, each
    /// call that can fail fails with kind `Other`.
    pub fn skip_next_record(&mut self) -> Result<bool, io::Error> {
        self.reader.skip_next_record()
    }
}

/// Writes the header and the offset of the next record.
impl<R: Read> fmt::Debug for JitDumpReader<R> {
    fn fmt(&self, f: &mut fmt::Formatter<'_>) -> fmt::Result {
        f.debug_struct("JitDumpReader")
            .field("header", &self.header)
            .field("next_record_offset", &self.next_record_offset())
            .finish_non_exhaustive()
    }
}
