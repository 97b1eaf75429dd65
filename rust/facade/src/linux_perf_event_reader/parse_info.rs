//! The fields of the records of an attribute.

use crate::convert;
use crate::inner;
use crate::linux_perf_event_reader::{
    AttrFlags, BranchSampleFormat, Endianness, PerfEventAttr, ReadFormat, SampleFormat,
};
use byteorder::ByteOrder;
use std::fmt;

/// The fields of the records of an attribute, and the offsets of the time and the identifier.
///
/// The public fields are for reading. [`RawEventRecord::parse`](super::RawEventRecord::parse) parses by the
/// attribute of [`RecordParseInfo::new`].
#[derive(Clone, Copy)]
pub struct RecordParseInfo {
    /// The byte order of the numbers.
    pub endian: Endianness,
    /// The fields of a sample.
    pub sample_format: SampleFormat,
    /// The fields of a branch stack.
    pub branch_sample_format: BranchSampleFormat,
    /// The fields of counter values.
    pub read_format: ReadFormat,
    /// The size of the sample_id fields at the end of a record that isn't a sample, in bytes.
    pub common_data_offset_from_end: Option<u8>,
    /// The registers of the program in a sample, as bits.
    pub sample_regs_user: u64,
    /// The number of these registers.
    pub regs_count: u8,
    /// The offsets of the identifier.
    pub id_parse_info: RecordIdParseInfo,
    /// The offset of the time in a record that isn't a sample, in bytes from the end of the body.
    pub nonsample_record_time_offset_from_end: Option<u8>,
    /// The offset of the time in a sample, in bytes from the start of the body.
    pub sample_record_time_offset_from_start: Option<u8>,
    // The format of the library, which also knows the bits without a name here.
    pub(crate) format: inner::EventFormat,
}

/// The offsets of the identifier in the records of an attribute.
#[derive(Clone, Copy, Debug, PartialEq, Eq)]
pub struct RecordIdParseInfo {
    /// In a record that isn't a sample, in bytes from the end of the body.
    pub nonsample_record_id_offset_from_end: Option<u8>,
    /// In a sample, in bytes from the start of the body.
    pub sample_record_id_offset_from_start: Option<u8>,
}

// The numbers of an attribute that its records depend on. The others are 0.
fn numbers_of(attr: &PerfEventAttr) -> inner::PerfEventAttr {
    inner::PerfEventAttr {
        sample_format: inner::SampleFormat(attr.sample_format.bits()),
        read_format: attr.read_format.bits(),
        flags: inner::AttrFlags(attr.flags.bits()),
        branch_sample_type: attr.branch_sample_format.bits(),
        sample_regs_user: attr.sample_regs_user,
        sample_regs_intr: attr.sample_regs_intr,
        ..inner::EMPTY_ATTR
    }
}

// An offset, which is at most 48.
fn narrow(offset: Option<u64>) -> Option<u8> {
    offset.and_then(|offset| u8::try_from(offset).ok())
}

fn widen(offset: Option<u8>) -> Option<u64> {
    offset.map(u64::from)
}

impl RecordParseInfo {
    /// Returns the fields of the records of an attribute, with numbers in the byte order `endian`.
    pub fn new(attr: &PerfEventAttr, endian: Endianness) -> Self {
        Self::of_numbers(&numbers_of(attr), convert::inner_endian(endian))
    }

    pub(crate) fn of_numbers(attr: &inner::PerfEventAttr, endian: inner::Endianness) -> Self {
        // The flags are read by number in either byte order, as linux-perf-data does.
        let format = inner::EventFormat::with_little_endian_flags(attr, endian);
        let offsets = inner::RecordParseInfo::new(attr, endian);
        let sample_format = SampleFormat::from_bits_truncate(attr.sample_format.0);
        let common = SampleFormat::TID
            | SampleFormat::TIME
            | SampleFormat::ID
            | SampleFormat::STREAM_ID
            | SampleFormat::CPU
            | SampleFormat::IDENTIFIER;
        let common_size = 8 * (sample_format & common).bits().count_ones() as u8;
        Self {
            endian: convert::endian(endian),
            sample_format,
            branch_sample_format: BranchSampleFormat::from_bits_truncate(attr.branch_sample_type),
            read_format: ReadFormat::from_bits_truncate(attr.read_format),
            common_data_offset_from_end: AttrFlags::from_bits_truncate(attr.flags.0)
                .contains(AttrFlags::SAMPLE_ID_ALL)
                .then_some(common_size),
            sample_regs_user: attr.sample_regs_user,
            regs_count: attr.sample_regs_user.count_ones() as u8,
            id_parse_info: RecordIdParseInfo::from_offsets(&offsets.id_parse_info),
            nonsample_record_time_offset_from_end: narrow(offsets.other_time_from_end),
            sample_record_time_offset_from_start: narrow(offsets.sample_time_from_start),
            format,
        }
    }

    // The format of the library, with numbers in the byte order `T`.
    pub(crate) fn format_in<T: ByteOrder>(&self) -> inner::EventFormat {
        inner::EventFormat {
            endian: convert::inner_endian_of::<T>(),
            ..self.format
        }
    }

    // The offsets in the form of the library.
    pub(crate) fn offsets(&self) -> inner::RecordParseInfo {
        inner::RecordParseInfo {
            endian: convert::inner_endian(self.endian),
            sample_format: inner::SampleFormat(self.sample_format.bits()),
            id_parse_info: self.id_parse_info.offsets(),
            sample_time_from_start: widen(self.sample_record_time_offset_from_start),
            other_time_from_end: widen(self.nonsample_record_time_offset_from_end),
        }
    }
}

impl RecordIdParseInfo {
    /// Returns the offsets of the identifier in the records of an attribute.
    pub fn new(attr: &PerfEventAttr) -> Self {
        Self::from_offsets(&inner::RecordIdParseInfo::new(&numbers_of(attr)))
    }

    fn from_offsets(offsets: &inner::RecordIdParseInfo) -> Self {
        Self {
            nonsample_record_id_offset_from_end: narrow(offsets.other_id_from_end),
            sample_record_id_offset_from_start: narrow(offsets.sample_id_from_start),
        }
    }

    // The offsets in the form of the library.
    pub(crate) fn offsets(&self) -> inner::RecordIdParseInfo {
        inner::RecordIdParseInfo {
            sample_id_from_start: widen(self.sample_record_id_offset_from_start),
            other_id_from_end: widen(self.nonsample_record_id_offset_from_end),
        }
    }
}

/// Compares the public fields.
impl PartialEq for RecordParseInfo {
    fn eq(&self, other: &Self) -> bool {
        self.endian == other.endian
            && self.sample_format == other.sample_format
            && self.branch_sample_format == other.branch_sample_format
            && self.read_format == other.read_format
            && self.common_data_offset_from_end == other.common_data_offset_from_end
            && self.sample_regs_user == other.sample_regs_user
            && self.regs_count == other.regs_count
            && self.id_parse_info == other.id_parse_info
            && self.nonsample_record_time_offset_from_end
                == other.nonsample_record_time_offset_from_end
            && self.sample_record_time_offset_from_start
                == other.sample_record_time_offset_from_start
    }
}

impl Eq for RecordParseInfo {}

/// Writes the public fields.
impl fmt::Debug for RecordParseInfo {
    fn fmt(&self, f: &mut fmt::Formatter<'_>) -> fmt::Result {
        f.debug_struct("RecordParseInfo")
            .field("endian", &self.endian)
            .field("sample_format", &self.sample_format)
            .field("branch_sample_format", &self.branch_sample_format)
            .field("read_format", &self.read_format)
            .field(
                "common_data_offset_from_end",
                &self.common_data_offset_from_end,
            )
            .field("sample_regs_user", &self.sample_regs_user)
            .field("regs_count", &self.regs_count)
            .field("id_parse_info", &self.id_parse_info)
            .field(
                "nonsample_record_time_offset_from_end",
                &self.nonsample_record_time_offset_from_end,
            )
            .field(
                "sample_record_time_offset_from_start",
                &self.sample_record_time_offset_from_start,
            )
            .finish()
    }
}
