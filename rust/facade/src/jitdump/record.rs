//! Records of jitdump files.

use crate::convert;
use crate::inner;
use crate::jitdump::{
    JitCodeDebugInfoRecord, JitCodeLoadRecord, JitCodeMoveRecord, JitCodeUnwindingInfoRecord,
};
use crate::linux_perf_event_reader::{Endianness, RawData};
use byteorder::ByteOrder;
use std::io;

/// The type of a record of a jitdump file.
#[derive(Debug, Clone, Copy, PartialEq, Eq, PartialOrd, Ord, Hash)]
pub struct JitDumpRecordType(pub u32);

impl JitDumpRecordType {
    /// A function was compiled.
    pub const JIT_CODE_LOAD: Self = Self(inner::jit::JitDumpRecordType::JIT_CODE_LOAD.0);
    /// A function was moved.
    pub const JIT_CODE_MOVE: Self = Self(inner::jit::JitDumpRecordType::JIT_CODE_MOVE.0);
    /// The source locations of a function's code.
    pub const JIT_CODE_DEBUG_INFO: Self =
        Self(inner::jit::JitDumpRecordType::JIT_CODE_DEBUG_INFO.0);
    /// The runtime writes no more records.
    pub const JIT_CODE_CLOSE: Self = Self(inner::jit::JitDumpRecordType::JIT_CODE_CLOSE.0);
    /// The unwinding information of a function.
    pub const JIT_CODE_UNWINDING_INFO: Self =
        Self(inner::jit::JitDumpRecordType::JIT_CODE_UNWINDING_INFO.0);
}

/// The header of a record.
#[derive(Debug, Clone)]
pub struct JitDumpRecordHeader {
    /// The type of the record.
    pub record_type: JitDumpRecordType,
    /// The size of the record in bytes, with its header.
    pub total_size: u32,
    /// The time at which the record was written.
    pub timestamp: u64,
}

impl From<inner::jit::JitDumpRecordHeader> for JitDumpRecordHeader {
    fn from(header: inner::jit::JitDumpRecordHeader) -> Self {
        Self {
            record_type: JitDumpRecordType(header.record_type.0),
            total_size: header.total_size,
            timestamp: header.timestamp,
        }
    }
}

impl JitDumpRecordHeader {
    /// The size of a record header in bytes.
    pub const SIZE: usize = inner::jit::JitDumpRecordHeader::SIZE;

    /// Parses the record header at the start of the bytes.
    ///
    /// It fails with `UnexpectedEof` if there are fewer than 16.
    pub fn parse(endian: Endianness, data: RawData<'_>) -> Result<Self, io::Error> {
        let bytes = convert::inner_raw_data(data);
        inner::jit::JitDumpRecordHeader::parse(convert::inner_endian(endian), bytes).map(Self::from)
    }

    /// Parses as `parse` does, in the byte order `O`.
    pub fn parse_impl<O: ByteOrder>(data: RawData<'_>) -> Result<Self, io::Error> {
        Self::parse(convert::endian_of::<O>(), data)
    }
}

/// A parsed record.
#[derive(Debug, Clone)]
pub enum JitDumpRecord<'a> {
    /// A function that was compiled.
    CodeLoad(JitCodeLoadRecord<'a>),
    /// A function that was moved.
    CodeMove(JitCodeMoveRecord),
    /// The source locations of a function's code.
    CodeDebugInfo(JitCodeDebugInfoRecord<'a>),
    /// The runtime writes no more records.
    CodeClose,
    /// The unwinding information of a function.
    CodeUnwindingInfo(JitCodeUnwindingInfoRecord<'a>),
    /// A record of any other type.
    Other(JitDumpRawRecord<'a>),
}

/// A record whose body is borrowed and not parsed.
#[derive(Debug, Clone)]
pub struct JitDumpRawRecord<'a> {
    /// The byte order of its numbers.
    pub endian: Endianness,
    /// The type.
    pub record_type: JitDumpRecordType,
    /// The time at which it was written.
    pub timestamp: u64,
    /// The offset of its header in the file, in bytes.
    pub start_offset: u64,
    /// Its size in bytes, with its header.
    pub record_size: u32,
    /// All bytes after its header.
    pub body: RawData<'a>,
}

impl<'a> From<inner::jit::JitDumpRawRecord<'a>> for JitDumpRawRecord<'a> {
    fn from(record: inner::jit::JitDumpRawRecord<'a>) -> Self {
        Self {
            endian: convert::endian(record.endian),
            record_type: JitDumpRecordType(record.record_type.0),
            timestamp: record.timestamp,
            start_offset: record.start_offset,
            record_size: record.record_size,
            body: convert::raw_data(record.body),
        }
    }
}

impl<'a> JitDumpRawRecord<'a> {
    /// Parses the body by the record's type.
    ///
    /// It fails with `UnexpectedEof` if the body is truncated, and with `OutOfMemory` if memory runs out for
    /// source locations.
    pub fn parse(&self) -> Result<JitDumpRecord<'a>, io::Error> {
        let record = inner::jit::JitDumpRawRecord {
            endian: convert::inner_endian(self.endian),
            record_type: inner::jit::JitDumpRecordType(self.record_type.0),
            timestamp: self.timestamp,
            start_offset: self.start_offset,
            record_size: self.record_size,
            body: convert::inner_raw_data(self.body),
        };
        use inner::jit::JitDumpRecord as Inner;
        Ok(match record.parse(inner::Global)? {
            Inner::CodeLoad(load) => JitDumpRecord::CodeLoad(load.into()),
            Inner::CodeMove(moved) => JitDumpRecord::CodeMove(moved.into()),
            Inner::CodeDebugInfo(info) => {
                JitDumpRecord::CodeDebugInfo(JitCodeDebugInfoRecord::new(info)?)
            }
            Inner::CodeClose => JitDumpRecord::CodeClose,
            Inner::CodeUnwindingInfo(info) => JitDumpRecord::CodeUnwindingInfo(info.into()),
            Inner::Other(_) => JitDumpRecord::Other(self.clone()),
        })
    }
}
