//! The names of the library `dewikura` that this crate uses, and the few functions over its own collections.
//!
//! Everything else in this crate takes them from here.

#[cfg(not(feature = "event-reader"))]
mod events;

#[cfg(not(feature = "event-reader"))]
pub(crate) use events::*;

pub(crate) use dewikura::linux_perf_data::{
    Error, PerfFile, PerfFileReader, PerfFileRecord, PerfItem, PerfRecordIter, ReadError,
};
pub(crate) use dewikura::perfdata_base::attr::PerfEventAttr;
pub(crate) use dewikura::perfdata_base::event::{CpuMode, RecordType, user_types};
pub use dewikura::perfdata_base::features::Feature;
pub(crate) use dewikura::perfdata_base::features::{FeatureSet, FeatureSetIter};
pub(crate) use dewikura::perfdata_base::raw::{Endianness, RawData};
pub(crate) use dewikura::perfdata_base::source::{Counted, PlacedSource, Source};
#[cfg(feature = "zstd")]
pub(crate) use dewikura::perfdata_compressed::{
    DecompressedFile, DecompressedPipe, is_compressed_file,
};
pub(crate) use dewikura::perfdata_jit as jit;
pub(crate) use dewikura::perfdata_order::sorter::Sorter;
pub(crate) use dewikura::perfdata_records::auxtrace::Auxtrace;
pub(crate) use dewikura::perfdata_records::dso_info::DsoInfo;
pub(crate) use dewikura::perfdata_records::dso_key::DsoKey;
pub(crate) use dewikura::perfdata_records::record::{HeaderAttr, HeaderFeature, UserRecordType};
pub(crate) use dewikura::perfdata_records::thread_map::{ThreadMap, ThreadMapIter};
pub(crate) use dewikura::perfdata_sections::decode_error::DecodeError;
pub(crate) use dewikura::perfdata_sections::feature_sections::{
    AttributeDescription, ClockData, CompressionInfo, NrCpus, PmuMappings, SampleTimeRange,
};
pub use dewikura::perfdata_simpleperf::simpleperf::simpleperf_dso_type;
pub(crate) use dewikura::perfdata_simpleperf::simpleperf::{
    SimpleperfFileRecord, SimpleperfTypeSpecificInfo,
};
pub(crate) use dewikura::shim::std::alloc::{AllocError, Global};
pub(crate) use dewikura::shim::std::string::String as OwnString;
pub(crate) use dewikura::shim::std::vec::Vec as OwnVec;

use byteorder::{BigEndian, LittleEndian};
use std::alloc::{Layout, handle_alloc_error};
use std::io::{Read, Seek};

/// The vector of std in a vector of the library.
pub(crate) fn std_vec<T>(vec: OwnVec<T>) -> Vec<T> {
    vec.into_std()
}

/// The text of std in a text of the library.
pub(crate) fn std_string(text: OwnString) -> String {
    text.into_std()
}

/// Aborts the process if memory ran out, where a signature has no error for it.
pub(crate) fn or_abort<T>(result: Result<T, AllocError>) -> T {
    result.unwrap_or_else(|_| handle_alloc_error(Layout::new::<u8>()))
}

/// Reads the section EVENT_DESC.
pub(crate) fn read_event_desc<C: Read + Seek>(
    endian: Endianness,
    cursor: C,
) -> Result<OwnVec<AttributeDescription>, Error> {
    let mut source = Counted::new(cursor);
    match endian {
        Endianness::LittleEndian => AttributeDescription::parse_event_desc_section_from::<
            _,
            LittleEndian,
        >(Global, &mut source),
        Endianness::BigEndian => {
            AttributeDescription::parse_event_desc_section_from::<_, BigEndian>(Global, &mut source)
        }
    }
}

/// The bytes of an attribute in little-endian order, of which all fields are known.
#[cfg(feature = "event-reader")]
pub(crate) fn attr_bytes(attr: &PerfEventAttr) -> Vec<u8> {
    const SIZE: u32 = 136;
    let mut bytes = Vec::with_capacity(SIZE as usize);
    bytes.extend_from_slice(&attr.type_.to_le_bytes());
    bytes.extend_from_slice(&SIZE.to_le_bytes());
    for number in [
        attr.config,
        attr.period_or_freq,
        attr.sample_format.0,
        attr.read_format,
        attr.flags.0,
    ] {
        bytes.extend_from_slice(&number.to_le_bytes());
    }
    bytes.extend_from_slice(&attr.wakeup.to_le_bytes());
    bytes.extend_from_slice(&attr.bp_type.to_le_bytes());
    for number in [
        attr.config1,
        attr.config2,
        attr.branch_sample_type,
        attr.sample_regs_user,
    ] {
        bytes.extend_from_slice(&number.to_le_bytes());
    }
    bytes.extend_from_slice(&attr.sample_stack_user.to_le_bytes());
    bytes.extend_from_slice(&attr.clockid.to_le_bytes());
    bytes.extend_from_slice(&attr.sample_regs_intr.to_le_bytes());
    bytes.extend_from_slice(&attr.aux_watermark.to_le_bytes());
    bytes.extend_from_slice(&attr.sample_max_stack.to_le_bytes());
    bytes.extend_from_slice(&[0; 2]);
    bytes.extend_from_slice(&attr.aux_sample_size.to_le_bytes());
    bytes.extend_from_slice(&[0; 4]);
    bytes.extend_from_slice(&attr.sig_data.to_le_bytes());
    bytes.extend_from_slice(&attr.config3.to_le_bytes());
    bytes
}
