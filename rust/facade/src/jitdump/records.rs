//! The bodies of jitdump records.

use crate::convert;
use crate::inner;
use crate::linux_perf_event_reader::{Endianness, RawData};
use byteorder::ByteOrder;
use std::io;

/// A function that was compiled (`JIT_CODE_LOAD`).
#[derive(Debug, Clone)]
pub struct JitCodeLoadRecord<'a> {
    /// The process that compiled it.
    pub pid: u32,
    /// The thread that compiled it.
    pub tid: u32,
    /// The address at which the code is mapped.
    pub vma: u64,
    /// The address of the code.
    pub code_addr: u64,
    /// The number of this code, by which a move refers to it.
    pub code_index: u64,
    /// The name of the function.
    pub function_name: RawData<'a>,
    /// The machine code.
    pub code_bytes: RawData<'a>,
}

impl<'a> From<inner::jit::JitCodeLoadRecord<'a>> for JitCodeLoadRecord<'a> {
    fn from(load: inner::jit::JitCodeLoadRecord<'a>) -> Self {
        Self {
            pid: load.pid,
            tid: load.tid,
            vma: load.vma,
            code_addr: load.code_addr,
            code_index: load.code_index,
            function_name: convert::raw_data(load.function_name),
            code_bytes: convert::raw_data(load.code_bytes),
        }
    }
}

impl<'a> JitCodeLoadRecord<'a> {
    /// The offset of the function's name from the start of the record header, in bytes.
    pub const NAME_OFFSET_FROM_RECORD_START: usize =
        inner::jit::JitCodeLoadRecord::NAME_OFFSET_FROM_RECORD_START;

    /// Parses a body.
    ///
    /// It fails with `UnexpectedEof` if the body is truncated or no NUL ends the name.
    pub fn parse(endian: Endianness, data: RawData<'a>) -> Result<Self, io::Error> {
        let bytes = convert::inner_raw_data(data);
        inner::jit::JitCodeLoadRecord::parse(convert::inner_endian(endian), bytes).map(Self::from)
    }

    /// Parses as `parse` does, in the byte order `O`.
    pub fn parse_impl<O: ByteOrder>(data: RawData<'a>) -> Result<Self, io::Error> {
        Self::parse(convert::endian_of::<O>(), data)
    }

    /// Returns the offset of the code from the start of the record header, in bytes. It depends on the length
    /// of the name, whose NUL it includes.
    pub fn code_bytes_offset_from_record_header_start(&self) -> usize {
        Self::NAME_OFFSET_FROM_RECORD_START + self.function_name.len() + 1
    }
}

/// A function that was moved (`JIT_CODE_MOVE`).
#[derive(Debug, Clone)]
pub struct JitCodeMoveRecord {
    /// The process that runs the function.
    pub pid: u32,
    /// The thread that moved it.
    pub tid: u32,
    /// The address at which the code is mapped after the move.
    pub vma: u64,
    /// The address of the code before the move.
    pub old_code_addr: u64,
    /// The address of the code after the move.
    pub new_code_addr: u64,
    /// The size of the code in bytes.
    pub code_size: u64,
    /// The number of the code in its [`JitCodeLoadRecord`].
    pub code_index: u64,
}

impl From<inner::jit::JitCodeMoveRecord> for JitCodeMoveRecord {
    fn from(moved: inner::jit::JitCodeMoveRecord) -> Self {
        Self {
            pid: moved.pid,
            tid: moved.tid,
            vma: moved.vma,
            old_code_addr: moved.old_code_addr,
            new_code_addr: moved.new_code_addr,
            code_size: moved.code_size,
            code_index: moved.code_index,
        }
    }
}

impl JitCodeMoveRecord {
    /// Parses a body.
    ///
    /// It fails with `UnexpectedEof` if there are fewer than 48 bytes.
    pub fn parse(endian: Endianness, data: RawData<'_>) -> Result<Self, io::Error> {
        let bytes = convert::inner_raw_data(data);
        inner::jit::JitCodeMoveRecord::parse(convert::inner_endian(endian), bytes).map(Self::from)
    }

    /// Parses as `parse` does, in the byte order `O`.
    pub fn parse_impl<O: ByteOrder>(data: RawData<'_>) -> Result<Self, io::Error> {
        Self::parse(convert::endian_of::<O>(), data)
    }
}

/// The source locations of a function's code (`JIT_CODE_DEBUG_INFO`).
#[derive(Debug, Clone)]
pub struct JitCodeDebugInfoRecord<'a> {
    /// The address of the code.
    pub code_addr: u64,
    /// The source locations, which runtimes write in the order of their addresses.
    pub entries: Vec<JitCodeDebugInfoEntry<'a>>,
}

/// The source location of the code from this entry's address up to that of the next entry.
#[derive(Debug, Clone)]
pub struct JitCodeDebugInfoEntry<'a> {
    /// The address of the first byte of the code.
    pub code_addr: u64,
    /// The number of the line, from 1 on.
    pub line: u32,
    /// The number of the column, from 1 on, or 0 if it isn't known.
    pub column: u32,
    /// The path of the source file.
    pub file_path: RawData<'a>,
}

impl<'a> JitCodeDebugInfoRecord<'a> {
    pub(crate) fn new(info: inner::jit::JitCodeDebugInfoRecord<'a>) -> io::Result<Self> {
        let mut entries = Vec::new();
        entries.try_reserve_exact(info.entries.len())?;
        entries.extend(info.entries.iter().map(|entry| JitCodeDebugInfoEntry {
            code_addr: entry.code_addr,
            line: entry.line,
            column: entry.column,
            file_path: convert::raw_data(entry.file_path),
        }));
        Ok(Self {
            code_addr: info.code_addr,
            entries,
        })
    }

    /// Parses a body.
    ///
    /// It fails with `UnexpectedEof` if the body is truncated, and with `OutOfMemory` if memory runs out.
    pub fn parse(endian: Endianness, data: RawData<'a>) -> Result<Self, io::Error> {
        let (endian, bytes) = (convert::inner_endian(endian), convert::inner_raw_data(data));
        let info = inner::jit::JitCodeDebugInfoRecord::parse(inner::Global, endian, bytes)?;
        Self::new(info)
    }

    /// Parses as `parse` does, in the byte order `O`.
    pub fn parse_impl<O: ByteOrder>(data: RawData<'a>) -> Result<Self, io::Error> {
        Self::parse(convert::endian_of::<O>(), data)
    }

    /// Returns the last of the entries whose addresses are at most `addr`, or `None` if there is none. The
    /// entries must be in the order of their addresses.
    pub fn lookup(&self, addr: u64) -> Option<&JitCodeDebugInfoEntry<'a>> {
        let count = self
            .entries
            .partition_point(|entry| entry.code_addr <= addr);
        self.entries.get(count.checked_sub(1)?)
    }
}

/// The unwinding information of a function (`JIT_CODE_UNWINDING_INFO`).
#[derive(Debug, Clone)]
pub struct JitCodeUnwindingInfoRecord<'a> {
    /// The number of bytes of the information that are mapped: none or all.
    pub mapped_size: u64,
    /// The index, in the form of the ELF section `.eh_frame_hdr`.
    pub eh_frame_hdr: RawData<'a>,
    /// The information, in the form of the ELF section `.eh_frame`.
    pub eh_frame: RawData<'a>,
}

impl<'a> From<inner::jit::JitCodeUnwindingInfoRecord<'a>> for JitCodeUnwindingInfoRecord<'a> {
    fn from(info: inner::jit::JitCodeUnwindingInfoRecord<'a>) -> Self {
        Self {
            mapped_size: info.mapped_size,
            eh_frame_hdr: convert::raw_data(info.eh_frame_hdr),
            eh_frame: convert::raw_data(info.eh_frame),
        }
    }
}

impl<'a> JitCodeUnwindingInfoRecord<'a> {
    /// Parses a body.
    ///
    /// It fails with `UnexpectedEof` if the body is truncated, or if the index is longer than index and
    /// information together.
    pub fn parse(endian: Endianness, data: RawData<'a>) -> Result<Self, io::Error> {
        let bytes = convert::inner_raw_data(data);
        inner::jit::JitCodeUnwindingInfoRecord::parse(convert::inner_endian(endian), bytes)
            .map(Self::from)
    }

    /// Parses as `parse` does, in the byte order `O`.
    pub fn parse_impl<O: ByteOrder>(data: RawData<'a>) -> Result<Self, io::Error> {
        Self::parse(convert::endian_of::<O>(), data)
    }
}
