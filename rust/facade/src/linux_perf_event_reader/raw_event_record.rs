//! Kernel records.

use crate::convert;
use crate::inner;
use crate::linux_perf_event_reader::event_record::named;
use crate::linux_perf_event_reader::{
    CommonData, EventRecord, RawData, RecordIdParseInfo, RecordParseInfo, RecordType, SampleRecord,
};
use byteorder::{BigEndian, ByteOrder, LittleEndian};
use std::fmt;
use std::io;

/// Returns the identifier of a record in an input whose records all have the field IDENTIFIER, with numbers
/// in the byte order `T`.
///
/// It is the first eight bytes of a sample, and the last eight of another kernel record if `sample_id_all` is
/// true. It is `None` if the body is shorter, and for a record of a tool.
pub fn get_record_identifier<T: ByteOrder>(
    record_type: RecordType,
    data: RawData<'_>,
    sample_id_all: bool,
) -> Option<u64> {
    let record_type = inner::RecordType(record_type.0);
    let data = convert::inner_raw_data(data);
    match convert::inner_endian_of::<T>() {
        inner::Endianness::LittleEndian => {
            inner::get_record_identifier::<LittleEndian>(record_type, data, sample_id_all)
        }
        inner::Endianness::BigEndian => {
            inner::get_record_identifier::<BigEndian>(record_type, data, sample_id_all)
        }
    }
}

/// Returns the identifier of a record, at the offset from its attribute, with numbers in the byte order `T`.
///
/// It is `None` if the record has no such offset, if the body is shorter, and for a record of a tool.
pub fn get_record_id<T: ByteOrder>(
    record_type: RecordType,
    data: RawData<'_>,
    parse_info: &RecordIdParseInfo,
) -> Option<u64> {
    let record_type = inner::RecordType(record_type.0);
    let data = convert::inner_raw_data(data);
    let offsets = parse_info.offsets();
    match convert::inner_endian_of::<T>() {
        inner::Endianness::LittleEndian => {
            inner::get_record_id::<LittleEndian>(record_type, data, &offsets)
        }
        inner::Endianness::BigEndian => {
            inner::get_record_id::<BigEndian>(record_type, data, &offsets)
        }
    }
}

/// Returns the time of a record, at the offset from its attribute, with numbers in the byte order `T`.
///
/// It is `None` if the record has no such offset, if the body is shorter, and for a record of a tool.
pub fn get_record_timestamp<T: ByteOrder>(
    record_type: RecordType,
    data: RawData<'_>,
    parse_info: &RecordParseInfo,
) -> Option<u64> {
    let record_type = inner::RecordType(record_type.0);
    let data = convert::inner_raw_data(data);
    let offsets = parse_info.offsets();
    match convert::inner_endian_of::<T>() {
        inner::Endianness::LittleEndian => {
            inner::get_record_timestamp::<LittleEndian>(record_type, data, &offsets)
        }
        inner::Endianness::BigEndian => {
            inner::get_record_timestamp::<BigEndian>(record_type, data, &offsets)
        }
    }
}

/// A kernel record whose body is borrowed and not parsed.
#[derive(Clone, PartialEq, Eq)]
pub struct RawEventRecord<'a> {
    /// The record's type, which is below 64.
    pub record_type: RecordType,
    /// Bits of the record, among them the processor's mode.
    pub misc: u16,
    /// All bytes after the record header.
    pub data: RawData<'a>,
    /// The fields of the records of the record's attribute.
    pub parse_info: RecordParseInfo,
}

// Whether `EventRecord` has a name for records of a type.
fn has_name(record_type: RecordType) -> bool {
    matches!(
        record_type,
        RecordType::MMAP
            | RecordType::LOST
            | RecordType::COMM
            | RecordType::EXIT
            | RecordType::THROTTLE
            | RecordType::UNTHROTTLE
            | RecordType::FORK
            | RecordType::MMAP2
            | RecordType::SWITCH
            | RecordType::SWITCH_CPU_WIDE
    )
}

impl<'a> RawEventRecord<'a> {
    /// Makes a record of a kernel's type.
    pub fn new(
        record_type: RecordType,
        misc: u16,
        data: RawData<'a>,
        parse_info: RecordParseInfo,
    ) -> Self {
        Self {
            record_type,
            misc,
            data,
            parse_info,
        }
    }

    /// Returns who wrote the record, when and where. All fields of a record of a tool are `None`.
    ///
    /// It fails with `UnexpectedEof` if the body doesn't contain all of the fields.
    pub fn common_data(&self) -> Result<CommonData, io::Error> {
        if self.record_type.is_user_type() {
            return Ok(CommonData::default());
        }
        CommonData::parse_type(
            inner::RecordType(self.record_type.0),
            self.data,
            &self.parse_info.format,
        )
    }

    /// Returns the time, or `None` if the record has none.
    pub fn timestamp(&self) -> Option<u64> {
        match self.parse_info.format.endian {
            inner::Endianness::LittleEndian => {
                get_record_timestamp::<LittleEndian>(self.record_type, self.data, &self.parse_info)
            }
            inner::Endianness::BigEndian => {
                get_record_timestamp::<BigEndian>(self.record_type, self.data, &self.parse_info)
            }
        }
    }

    /// Returns the identifier of the event, or `None` if the record has none.
    pub fn id(&self) -> Option<u64> {
        let offsets = &self.parse_info.id_parse_info;
        match self.parse_info.format.endian {
            inner::Endianness::LittleEndian => {
                get_record_id::<LittleEndian>(self.record_type, self.data, offsets)
            }
            inner::Endianness::BigEndian => {
                get_record_id::<BigEndian>(self.record_type, self.data, offsets)
            }
        }
    }

    /// Parses the body by the record's type. Nothing is allocated but a build id.
    ///
    /// A record of a type that [`EventRecord`] doesn't name stays raw. So does a sample if the attribute
    /// selects a field whose offset isn't known.
    ///
    /// It fails with `UnexpectedEof` if the fields are truncated, and with `InvalidData` if a text has no NUL
    /// before the sample_id fields or a build id has more than 20 bytes.
    pub fn parse(&self) -> Result<EventRecord<'a>, io::Error> {
        let format = &self.parse_info.format;
        if self.record_type == RecordType::SAMPLE {
            if !format.has_known_fields() {
                return Ok(EventRecord::Raw(self.clone()));
            }
            let sample = SampleRecord::parse_format(self.data, self.misc, format)?;
            return Ok(EventRecord::Sample(sample));
        }
        if !has_name(self.record_type) {
            return Ok(EventRecord::Raw(self.clone()));
        }
        let record = format.parse(&inner::RawEventRecord {
            record_type: inner::RecordType(self.record_type.0),
            misc: self.misc,
            body: convert::inner_raw_data(self.data),
            parse_info: inner::NO_OFFSETS,
        })?;
        Ok(named(record, self))
    }
}

/// Writes the type, `misc` and the length of the body.
impl fmt::Debug for RawEventRecord<'_> {
    fn fmt(&self, f: &mut fmt::Formatter<'_>) -> fmt::Result {
        f.debug_map()
            .entry(&"record_type", &self.record_type)
            .entry(&"misc", &self.misc)
            .entry(&"data.len", &self.data.len())
            .finish()
    }
}
