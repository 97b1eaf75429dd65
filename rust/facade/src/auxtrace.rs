//! Aux data.

use crate::convert;
use crate::inner;
use crate::linux_perf_event_reader::RawData;
use byteorder::{BigEndian, ByteOrder, LittleEndian};
use std::io;

/// Aux data of a buffer, for example of Intel PT (`PERF_RECORD_AUXTRACE` of perf).
#[derive(Debug, Clone, PartialEq, Eq)]
pub struct Auxtrace<'a> {
    /// The size of the aux data in bytes.
    pub size: u64,
    /// The offset of this aux data in all aux data of the buffer, in bytes.
    pub offset: u64,
    /// A number of the tool that distinguishes buffers.
    pub reference: u64,
    /// The index of the buffer.
    pub index: u32,
    /// The recorded thread.
    pub tid: u32,
    /// The recorded processor.
    pub cpu: u32,
    /// The aux data, of `size` bytes.
    pub aux_data: RawData<'a>,
}

impl<'a> Auxtrace<'a> {
    /// Parses a body with its aux data, with numbers in the byte order `T`.
    ///
    /// It fails with `UnexpectedEof` if there are fewer than 40 bytes before the aux data, and with
    /// `InvalidData` unless exactly `size` bytes follow them.
    pub fn parse<T: ByteOrder>(data: RawData<'a>) -> Result<Self, io::Error> {
        let bytes = convert::inner_raw_data(data);
        let trace = match convert::inner_endian_of::<T>() {
            inner::Endianness::LittleEndian => inner::Auxtrace::parse::<LittleEndian>(bytes)?,
            inner::Endianness::BigEndian => inner::Auxtrace::parse::<BigEndian>(bytes)?,
        };
        Ok(Self {
            size: trace.size,
            offset: trace.offset,
            reference: trace.reference,
            index: trace.index,
            tid: trace.tid,
            cpu: trace.cpu,
            aux_data: convert::raw_data(trace.aux_data),
        })
    }
}
