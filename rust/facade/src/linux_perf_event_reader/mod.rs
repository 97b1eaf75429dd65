//! The types and functions of the crate `linux-perf-event-reader` that this crate's interface has, under
//! their names.
//!
//! Bodies are parsed by the library `dewikura`: no body causes a panic or an endless loop, and a malformed
//! text is an error. The feature `event-reader` puts the crate `linux-perf-event-reader` itself here.

mod attr;
mod common_data;
pub mod constants;
mod endian;
mod event_record;
mod event_type;
mod parse_info;
mod raw_data;
mod raw_event_record;
mod registers;
mod sample;
mod types;

pub use attr::*;
pub use common_data::CommonData;
pub use endian::Endianness;
pub use event_record::*;
pub use event_type::*;
pub use parse_info::{RecordIdParseInfo, RecordParseInfo};
pub use raw_data::{RawData, RawDataU64, is_swapped_endian};
pub use raw_event_record::{
    RawEventRecord, get_record_id, get_record_identifier, get_record_timestamp,
};
pub use registers::Regs;
pub use sample::SampleRecord;
pub use types::*;
