//! The values of feature sections, and the attributes with their names.

use crate::convert;
use crate::error::{Error, ReadError};
use crate::inner;
use crate::linux_perf_event_reader::PerfEventAttr;
use byteorder::ByteOrder;
use std::io::{self, Read, Seek};

/// The numbers of processors of the machine (section NRCPUS).
#[derive(Debug, Clone, Copy)]
pub struct NrCpus {
    /// The number of processors that there are.
    pub nr_cpus_available: u32,
    /// The number of processors that were online.
    pub nr_cpus_online: u32,
}

impl NrCpus {
    /// The size of the section in bytes.
    pub const STRUCT_SIZE: usize = inner::NrCpus::STRUCT_SIZE;

    /// Reads the section, with numbers in the byte order `T`.
    ///
    /// It fails with `UnexpectedEof` if there are fewer bytes, and with the reader's own error.
    pub fn parse<R: Read, T: ByteOrder>(reader: R) -> Result<Self, io::Error> {
        let mut source = inner::Counted::new(reader);
        inner::NrCpus::parse_with_endian(convert::inner_endian_of::<T>(), &mut source)
            .map(Self::from)
    }
}

impl From<inner::NrCpus> for NrCpus {
    fn from(cpus: inner::NrCpus) -> Self {
        Self {
            nr_cpus_available: cpus.nr_cpus_available,
            nr_cpus_online: cpus.nr_cpus_online,
        }
    }
}

/// The times of the first and of the last sample (section SAMPLE_TIME).
#[derive(Debug, Clone, Copy)]
pub struct SampleTimeRange {
    /// The time of the first sample, in nanoseconds.
    pub first_sample_time: u64,
    /// The time of the last sample, in nanoseconds.
    pub last_sample_time: u64,
}

impl SampleTimeRange {
    /// The size of the section in bytes.
    pub const STRUCT_SIZE: usize = inner::SampleTimeRange::STRUCT_SIZE;

    /// Reads the section, with numbers in the byte order `T`.
    ///
    /// It fails with `UnexpectedEof` if there are fewer bytes, and with the reader's own error.
    pub fn parse<R: Read, T: ByteOrder>(reader: R) -> Result<Self, io::Error> {
        let mut source = inner::Counted::new(reader);
        inner::SampleTimeRange::parse_with_endian(convert::inner_endian_of::<T>(), &mut source)
            .map(Self::from)
    }
}

impl From<inner::SampleTimeRange> for SampleTimeRange {
    fn from(range: inner::SampleTimeRange) -> Self {
        Self {
            first_sample_time: range.first_sample_time,
            last_sample_time: range.last_sample_time,
        }
    }
}

/// How records are compressed (section COMPRESSED).
#[derive(Debug, Clone, Copy)]
pub struct CompressionInfo {
    /// The version of the section.
    pub version: u32,
    /// The algorithm: 1 is Zstandard.
    pub type_: u32,
    /// The level, whose meaning depends on the algorithm.
    pub level: u32,
    /// The size before the compression divided by the size after it.
    pub ratio: u32,
    /// The size of perf's buffer in bytes.
    pub mmap_len: u32,
}

impl CompressionInfo {
    /// The size of the section in bytes.
    pub const STRUCT_SIZE: usize = inner::CompressionInfo::STRUCT_SIZE;

    /// The algorithm Zstandard.
    pub const ZSTD_TYPE: u32 = inner::CompressionInfo::ZSTD_TYPE;

    /// Reads the section, with numbers in the byte order `T`.
    ///
    /// It fails with `UnexpectedEof` if there are fewer bytes, and with the reader's own error.
    pub fn parse<R: Read, T: ByteOrder>(reader: R) -> Result<Self, io::Error> {
        let mut source = inner::Counted::new(reader);
        inner::CompressionInfo::parse_with_endian(convert::inner_endian_of::<T>(), &mut source)
            .map(Self::from)
    }
}

impl From<inner::CompressionInfo> for CompressionInfo {
    fn from(info: inner::CompressionInfo) -> Self {
        Self {
            version: info.version,
            type_: info.type_,
            level: info.level,
            ratio: info.ratio,
            mmap_len: info.mmap_len,
        }
    }
}

/// The clock of the times, and its time at a time of day (section CLOCK_DATA).
#[derive(Debug, Clone, PartialEq, Eq)]
pub struct ClockData {
    /// The number of the clock.
    pub clockid: u32,
    /// The time of day, in nanoseconds since 1970.
    pub wall_clock_ns: u64,
    /// The time of the clock at that time of day, in nanoseconds.
    pub clockid_time_ns: u64,
}

impl ClockData {
    /// The size of the section in bytes.
    pub const STRUCT_SIZE: usize = inner::ClockData::STRUCT_SIZE;

    /// Reads the section, with numbers in the byte order `T`.
    ///
    /// It fails with `InvalidData` if the version of the section isn't 1, with `UnexpectedEof` if there are
    /// fewer bytes, and with the reader's own error.
    pub fn parse<R: Read, T: ByteOrder>(data: R) -> Result<Self, io::Error> {
        let mut source = inner::Counted::new(data);
        inner::ClockData::parse_with_endian(convert::inner_endian_of::<T>(), &mut source)
            .map(Self::from)
    }
}

impl From<inner::ClockData> for ClockData {
    fn from(data: inner::ClockData) -> Self {
        Self {
            clockid: data.clockid,
            wall_clock_ns: data.wall_clock_ns,
            clockid_time_ns: data.clockid_time_ns,
        }
    }
}

/// The names of the machine's monitoring units by their numbers (section PMU_MAPPINGS).
pub struct PmuMappings(pub PmuNames);

/// Names by number, in ascending order of the numbers.
#[derive(Debug, Clone, PartialEq, Eq, Default)]
pub struct PmuNames(Vec<(u32, String)>);

impl PmuMappings {
    pub(crate) fn new(units: inner::PmuMappings) -> Result<Self, Error> {
        let mut names = Vec::new();
        names.try_reserve_exact(units.0.len())?;
        for (number, name) in units.0 {
            names.push((number, inner::std_string(name)));
        }
        names.sort_unstable_by_key(|(number, _)| *number);
        Ok(PmuMappings(PmuNames(names)))
    }
}

impl PmuNames {
    fn position(&self, number: &u32) -> Option<usize> {
        self.0.binary_search_by_key(number, |(key, _)| *key).ok()
    }

    /// Returns the name of a number, or `None` if it has none.
    pub fn get(&self, number: &u32) -> Option<&String> {
        self.position(number).map(|index| &self.0[index].1)
    }

    /// Returns whether a number has a name.
    pub fn contains_key(&self, number: &u32) -> bool {
        self.position(number).is_some()
    }

    /// Returns the number of names.
    pub fn len(&self) -> usize {
        self.0.len()
    }

    /// Returns whether there are no names.
    pub fn is_empty(&self) -> bool {
        self.0.is_empty()
    }

    /// Returns the numbers with their names, in ascending order.
    pub fn iter(&self) -> impl DoubleEndedIterator<Item = (&u32, &String)> + ExactSizeIterator {
        self.0.iter().map(|(number, name)| (number, name))
    }

    /// Returns the numbers in ascending order.
    pub fn keys(&self) -> impl DoubleEndedIterator<Item = &u32> + ExactSizeIterator {
        self.0.iter().map(|(number, _)| number)
    }

    /// Returns the names in ascending order of their numbers.
    pub fn values(&self) -> impl DoubleEndedIterator<Item = &String> + ExactSizeIterator {
        self.0.iter().map(|(_, name)| name)
    }
}

impl IntoIterator for PmuNames {
    type Item = (u32, String);
    type IntoIter = std::vec::IntoIter<(u32, String)>;

    fn into_iter(self) -> Self::IntoIter {
        self.0.into_iter()
    }
}

impl<'a> IntoIterator for &'a PmuNames {
    type Item = (&'a u32, &'a String);
    type IntoIter = std::iter::Map<
        std::slice::Iter<'a, (u32, String)>,
        fn(&'a (u32, String)) -> (&'a u32, &'a String),
    >;

    fn into_iter(self) -> Self::IntoIter {
        self.0.iter().map(|(number, name)| (number, name))
    }
}

impl std::ops::Index<&u32> for PmuNames {
    type Output = String;

    /// Returns the name of a number. It panics if the number has none.
    fn index(&self, number: &u32) -> &String {
        self.get(number)
            .expect("no monitoring unit has this number")
    }
}

// A copy of a text.
pub(crate) fn owned(text: &str) -> Result<String, Error> {
    let mut copy = String::new();
    copy.try_reserve_exact(text.len())?;
    copy.push_str(text);
    Ok(copy)
}

/// The attribute of an event, with its name and the identifiers of its records if they are known.
#[derive(Debug, Clone)]
pub struct AttributeDescription {
    /// What is recorded, and how.
    pub attr: PerfEventAttr,
    /// The name of the event.
    pub name: Option<String>,
    /// The identifiers of the event's records.
    pub event_ids: Vec<u64>,
}

impl AttributeDescription {
    // An attribute with the name and the identifiers of a description of the library.
    pub(crate) fn new(
        attr: PerfEventAttr,
        description: &inner::AttributeDescription,
    ) -> Result<Self, Error> {
        let mut event_ids = Vec::new();
        event_ids.try_reserve_exact(description.ids().len())?;
        event_ids.extend_from_slice(description.ids());
        Ok(Self {
            attr,
            name: description.name().map(owned).transpose()?,
            event_ids,
        })
    }

    /// Reads a section EVENT_DESC, with numbers in the byte order `T`.
    ///
    /// It fails with [`ReadError::PerfEventAttr`] if an attribute is truncated, invalid, or of a type or a
    /// clock that isn't known, with [`Error::InconsistentAttributeSizes`] if an attribute is too long, with
    /// [`Error::IoError`] if another part is truncated or the reader fails, and with [`Error::OutOfMemory`]
    /// if memory runs out.
    pub fn parse_event_desc_section<C: Read + Seek, T: ByteOrder>(
        cursor: C,
    ) -> Result<Vec<Self>, Error> {
        let descriptions = inner::read_event_desc(convert::inner_endian_of::<T>(), cursor)?;
        let mut named = Vec::new();
        named.try_reserve_exact(descriptions.len())?;
        for description in descriptions.iter() {
            let attr = convert::attr(description.attributes())
                .map_err(|_| Error::Read(ReadError::PerfEventAttr))?;
            named.push(Self::new(attr, description)?);
        }
        Ok(named)
    }

    /// Returns the attribute.
    pub fn attributes(&self) -> &PerfEventAttr {
        &self.attr
    }

    /// Returns the name of the event, or `None` if the input doesn't contain it.
    pub fn name(&self) -> Option<&str> {
        self.name.as_deref()
    }

    /// Returns the identifiers of the event's records.
    pub fn ids(&self) -> &[u64] {
        &self.event_ids
    }
}
