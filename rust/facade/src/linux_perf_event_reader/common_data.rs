//! Who wrote a record, when and where.

use crate::convert;
use crate::inner;
use crate::linux_perf_event_reader::{RawData, RecordParseInfo};
use byteorder::ByteOrder;
use std::io;

/// Who wrote a record, when and where. A field is `None` if the attribute doesn't select it.
#[derive(Clone, Debug, Default)]
pub struct CommonData {
    /// The process.
    pub pid: Option<i32>,
    /// The thread.
    pub tid: Option<i32>,
    /// The time.
    pub timestamp: Option<u64>,
    /// The identifier of the event.
    pub id: Option<u64>,
    /// The identifier of the event itself, also if another task inherited it.
    pub stream_id: Option<u64>,
    /// The processor.
    pub cpu: Option<u32>,
}

impl CommonData {
    // Parses the body of a record of this type.
    pub(crate) fn parse_type(
        record_type: inner::RecordType,
        data: RawData<'_>,
        format: &inner::EventFormat,
    ) -> io::Result<Self> {
        let id = format.sample_id(&inner::RawEventRecord {
            record_type,
            misc: 0,
            body: convert::inner_raw_data(data),
            parse_info: inner::NO_OFFSETS,
        })?;
        Ok(Self {
            pid: id.task.map(|task| task.pid),
            tid: id.task.map(|task| task.tid),
            timestamp: id.timestamp,
            id: id.identifier.or(id.id),
            stream_id: id.stream_id,
            cpu: id.cpu,
        })
    }

    /// Parses the body of a sample.
    ///
    /// It fails with `UnexpectedEof` if the body doesn't contain all of the fields.
    pub fn parse_sample(
        data: RawData<'_>,
        parse_info: &RecordParseInfo,
    ) -> Result<Self, io::Error> {
        Self::parse_type(inner::RecordType::SAMPLE, data, &parse_info.format)
    }

    /// Parses the body of a sample as `parse_sample` does, with numbers in the byte order `T`.
    pub fn parse_sample_impl<T: ByteOrder>(
        data: RawData<'_>,
        parse_info: &RecordParseInfo,
    ) -> Result<Self, io::Error> {
        let format = parse_info.format_in::<T>();
        Self::parse_type(inner::RecordType::SAMPLE, data, &format)
    }

    /// Parses the body of a record that isn't a sample. Without the flag SAMPLE_ID_ALL all fields are `None`.
    ///
    /// It fails with `UnexpectedEof` if the body doesn't contain all of the fields.
    pub fn parse_nonsample(
        data: RawData<'_>,
        parse_info: &RecordParseInfo,
    ) -> Result<Self, io::Error> {
        Self::parse_type(inner::RecordType::COMM, data, &parse_info.format)
    }

    /// Parses the body of a record that isn't a sample as `parse_nonsample` does, with numbers in the byte
    /// order `T`.
    pub fn parse_nonsample_impl<T: ByteOrder>(
        data: RawData<'_>,
        parse_info: &RecordParseInfo,
    ) -> Result<Self, io::Error> {
        let format = parse_info.format_in::<T>();
        Self::parse_type(inner::RecordType::COMM, data, &format)
    }
}
