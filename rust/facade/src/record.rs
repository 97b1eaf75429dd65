//! Records, and the records that tools write.

use crate::auxtrace::Auxtrace;
use crate::convert;
use crate::features::Feature;
use crate::inner;
use crate::linux_perf_event_reader::{
    Endianness, PerfEventAttr, RawData, RawEventRecord, RecordType,
};
use crate::thread_map::ThreadMap;
use byteorder::{BigEndian, ByteOrder, LittleEndian};
use std::fmt;
use std::io;

/// A record of a file or a pipe.
pub enum PerfFileRecord<'a> {
    /// A record that the kernel wrote.
    EventRecord {
        /// The index of the attribute of the record's event, in
        /// [`PerfFile::event_attributes`](crate::PerfFile::event_attributes).
        attr_index: usize,
        /// The record.
        record: RawEventRecord<'a>,
    },
    /// A record that a tool wrote.
    UserRecord(RawUserRecord<'a>),
}

/// A record that a tool wrote, parsed by its type.
#[derive(Debug, Clone)]
#[non_exhaustive]
pub enum UserRecord<'a> {
    /// The recorded threads.
    ThreadMap(ThreadMap<'a>),
    /// An event's attribute.
    HeaderAttr(HeaderAttr),
    /// A feature's data.
    HeaderFeature(HeaderFeature),
    /// Aux data.
    Auxtrace(Auxtrace<'a>),
    /// A record of any other type.
    Raw(RawUserRecord<'a>),
}

/// The type of a record that a tool wrote, which is 64 or more.
#[derive(Clone, Copy, PartialEq, Eq, PartialOrd, Ord, Hash)]
pub struct UserRecordType(RecordType);

// Defines the constants of the tools' types.
macro_rules! user_types {
    ($($(#[$doc:meta])* $name:ident = $number:ident;)+) => {
        $($(#[$doc])* pub const $name: Self = Self(RecordType(inner::user_types::$number));)+
    };
}

impl UserRecordType {
    user_types! {
        /// An event's attribute and the identifiers of its records (perf).
        PERF_HEADER_ATTR = PERF_RECORD_HEADER_ATTR;
        /// The name of an event type (perf).
        PERF_HEADER_EVENT_TYPE = PERF_RECORD_HEADER_EVENT_TYPE;
        /// The size of the formats of tracepoints that follow (perf).
        PERF_HEADER_TRACING_DATA = PERF_RECORD_HEADER_TRACING_DATA;
        /// The build id of a mapped file (perf).
        PERF_HEADER_BUILD_ID = PERF_RECORD_HEADER_BUILD_ID;
        /// The end of a round (perf).
        PERF_FINISHED_ROUND = PERF_RECORD_FINISHED_ROUND;
        /// The events that identifiers belong to (perf).
        PERF_ID_INDEX = PERF_RECORD_ID_INDEX;
        /// The format of aux data (perf).
        PERF_AUXTRACE_INFO = PERF_RECORD_AUXTRACE_INFO;
        /// Aux data (perf).
        PERF_AUXTRACE = PERF_RECORD_AUXTRACE;
        /// An error in the recording of aux data (perf).
        PERF_AUXTRACE_ERROR = PERF_RECORD_AUXTRACE_ERROR;
        /// The recorded threads (perf).
        PERF_THREAD_MAP = PERF_RECORD_THREAD_MAP;
        /// The recorded processors (perf).
        PERF_CPU_MAP = PERF_RECORD_CPU_MAP;
        /// The options of a counting run (perf).
        PERF_STAT_CONFIG = PERF_RECORD_STAT_CONFIG;
        /// The value of a counter (perf).
        PERF_STAT = PERF_RECORD_STAT;
        /// The end of a round of counter values (perf).
        PERF_STAT_ROUND = PERF_RECORD_STAT_ROUND;
        /// Later information on an event (perf).
        PERF_EVENT_UPDATE = PERF_RECORD_EVENT_UPDATE;
        /// The conversion of a processor's counter to time (perf).
        PERF_TIME_CONV = PERF_RECORD_TIME_CONV;
        /// A feature's data (perf).
        PERF_HEADER_FEATURE = PERF_RECORD_HEADER_FEATURE;
        /// Compressed records (perf).
        PERF_COMPRESSED = PERF_RECORD_COMPRESSED;
        /// Compressed records with their size (perf).
        PERF_COMPRESSED2 = PERF_RECORD_COMPRESSED2;
        /// The symbols of the kernel (simpleperf).
        SIMPLEPERF_KERNEL_SYMBOL = SIMPLE_PERF_RECORD_KERNEL_SYMBOL;
        /// A file with symbols (simpleperf).
        SIMPLEPERF_DSO = SIMPLE_PERF_RECORD_DSO;
        /// A symbol (simpleperf).
        SIMPLEPERF_SYMBOL = SIMPLE_PERF_RECORD_SYMBOL;
        /// A part of a record that is too long for one (simpleperf).
        SIMPLEPERF_SPLIT = SIMPLE_PERF_RECORD_SPLIT;
        /// The end of the parts of a record (simpleperf).
        SIMPLEPERF_SPLIT_END = SIMPLE_PERF_RECORD_SPLIT_END;
        /// The events that identifiers belong to (simpleperf).
        SIMPLEPERF_EVENT_ID = SIMPLE_PERF_RECORD_EVENT_ID;
        /// A call chain (simpleperf).
        SIMPLEPERF_CALLCHAIN = SIMPLE_PERF_RECORD_CALLCHAIN;
        /// The result of unwinding a stack (simpleperf).
        SIMPLEPERF_UNWINDING_RESULT = SIMPLE_PERF_RECORD_UNWINDING_RESULT;
        /// The formats of tracepoints (simpleperf).
        SIMPLEPERF_TRACING_DATA = SIMPLE_PERF_RECORD_TRACING_DATA;
    }

    /// Returns the type if it is one of tools, or `None` for a type of the kernel.
    #[inline]
    pub fn try_from(record_type: RecordType) -> Option<Self> {
        record_type.is_user_type().then_some(Self(record_type))
    }

    // The type of a record that the library says a tool wrote.
    #[inline]
    pub(crate) fn of_tool(record_type: RecordType) -> Self {
        Self(record_type)
    }

    /// Returns the type as a [`RecordType`].
    #[inline]
    pub fn record_type(&self) -> RecordType {
        self.0
    }
}

impl From<UserRecordType> for RecordType {
    fn from(record_type: UserRecordType) -> Self {
        record_type.0
    }
}

/// Writes the name of the type's constant in quotes, or the number of a type without one.
impl fmt::Debug for UserRecordType {
    fn fmt(&self, f: &mut fmt::Formatter<'_>) -> fmt::Result {
        match inner::UserRecordType::try_from(inner::RecordType(self.0.0)) {
            Some(record_type) => fmt::Debug::fmt(&record_type, f),
            None => write!(f, "Unknown UserRecordType {}", self.0.0),
        }
    }
}

/// A record that a tool wrote, whose body is borrowed and not parsed.
#[derive(Debug, Clone)]
pub struct RawUserRecord<'a> {
    /// The record's type.
    pub record_type: UserRecordType,
    /// The byte order of its numbers.
    pub endian: Endianness,
    /// Bits of the record.
    pub misc: u16,
    /// All bytes after the record header, with aux data.
    pub data: RawData<'a>,
}

impl<'a> RawUserRecord<'a> {
    /// Parses the body by the record's type. A record of a type that [`UserRecord`] doesn't name stays raw.
    ///
    /// It fails with the errors of [`HeaderAttr::parse`], [`HeaderFeature::parse`], [`ThreadMap::parse`] and
    /// [`Auxtrace::parse`].
    pub fn parse(&self) -> Result<UserRecord<'a>, io::Error> {
        match self.endian {
            Endianness::LittleEndian => self.parse_impl::<LittleEndian>(),
            Endianness::BigEndian => self.parse_impl::<BigEndian>(),
        }
    }

    /// Parses the body as `parse` does, with numbers in the byte order `T`.
    pub fn parse_impl<T: ByteOrder>(&self) -> Result<UserRecord<'a>, io::Error> {
        Ok(match self.record_type {
            UserRecordType::PERF_HEADER_ATTR => {
                UserRecord::HeaderAttr(HeaderAttr::parse::<T>(self.data)?)
            }
            UserRecordType::PERF_HEADER_FEATURE => {
                UserRecord::HeaderFeature(HeaderFeature::parse::<T>(self.data)?)
            }
            UserRecordType::PERF_THREAD_MAP => {
                UserRecord::ThreadMap(ThreadMap::parse::<T>(self.data)?)
            }
            UserRecordType::PERF_AUXTRACE => UserRecord::Auxtrace(Auxtrace::parse::<T>(self.data)?),
            _ => UserRecord::Raw(self.clone()),
        })
    }
}

/// An event's attribute from a record of a pipe (`PERF_RECORD_HEADER_ATTR`).
#[derive(Debug, Clone)]
pub struct HeaderAttr {
    /// The attribute.
    pub attr: PerfEventAttr,
    /// The identifiers of the event's records.
    pub ids: Vec<u64>,
}

impl HeaderAttr {
    /// Parses a body: an attribute, and identifiers of eight bytes each to the end of the body.
    ///
    /// It fails with `UnexpectedEof` if the attribute or an identifier is truncated, with `InvalidData` if the
    /// own size of the attribute is 1 to 63, with `InvalidInput` if its type or its clock isn't known, and
    /// with `OutOfMemory` if memory runs out.
    pub fn parse<T: ByteOrder>(data: RawData<'_>) -> Result<Self, io::Error> {
        let bytes = convert::inner_raw_data(data);
        let header = match convert::inner_endian_of::<T>() {
            inner::Endianness::LittleEndian => {
                inner::HeaderAttr::parse::<LittleEndian>(inner::Global, bytes)?
            }
            inner::Endianness::BigEndian => {
                inner::HeaderAttr::parse::<BigEndian>(inner::Global, bytes)?
            }
        };
        Ok(Self {
            attr: convert::attr(&header.attr)?,
            ids: inner::std_vec(header.ids),
        })
    }
}

/// A feature's data from a record of a pipe (`PERF_RECORD_HEADER_FEATURE`).
#[derive(Debug, Clone)]
pub struct HeaderFeature {
    /// The feature.
    pub feature: Feature,
    /// The data, in the form of the feature's section in a file.
    pub data: Vec<u8>,
}

impl HeaderFeature {
    /// Parses a body: the number of the feature in the low half of eight bytes, and the data to the end of
    /// the body.
    ///
    /// It fails with `UnexpectedEof` if the number is truncated, and with `OutOfMemory` if memory runs out.
    pub fn parse<T: ByteOrder>(data: RawData<'_>) -> Result<Self, io::Error> {
        let bytes = convert::inner_raw_data(data);
        let header = match convert::inner_endian_of::<T>() {
            inner::Endianness::LittleEndian => {
                inner::HeaderFeature::parse::<LittleEndian>(inner::Global, bytes)?
            }
            inner::Endianness::BigEndian => {
                inner::HeaderFeature::parse::<BigEndian>(inner::Global, bytes)?
            }
        };
        Ok(Self {
            feature: header.feature,
            data: inner::std_vec(header.bytes),
        })
    }
}
