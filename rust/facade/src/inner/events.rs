//! The names of the library for the bodies of kernel records.

pub(crate) use dewikura::linux_perf_data::place::{
    RecordIdParseInfo, RecordParseInfo, get_record_id, get_record_identifier, get_record_timestamp,
};
pub(crate) use dewikura::perfdata_base::attr::{AttrFlags, SampleFormat};
pub(crate) use dewikura::perfdata_base::event::{PerfEventHeader, RawEventRecord};
pub(crate) use dewikura::perfdata_events::context_switch::ContextSwitchRecord;
pub(crate) use dewikura::perfdata_events::event::EventRecord;
pub(crate) use dewikura::perfdata_events::format::EventFormat;
pub(crate) use dewikura::perfdata_events::lost::{LostRecord, ThrottleRecord};
pub(crate) use dewikura::perfdata_events::mmap::MmapRecord;
pub(crate) use dewikura::perfdata_events::mmap2::{Mmap2FileId, Mmap2Record};
pub(crate) use dewikura::perfdata_events::sample::SampleRecord;
pub(crate) use dewikura::perfdata_events::task::{CommOrExecRecord, ForkOrExitRecord};
pub(crate) use dewikura::perfdata_events::u64s::RawDataU64;

use crate::inner::Counted;
use byteorder::{BigEndian, LittleEndian};
use dewikura::perfdata_base::attr::PerfEventAttr;
use dewikura::perfdata_base::raw::Endianness;
use std::io::{self, Read};

/// An attribute whose numbers are all 0.
pub(crate) const EMPTY_ATTR: PerfEventAttr = PerfEventAttr {
    type_: 0,
    size: 0,
    config: 0,
    period_or_freq: 0,
    sample_format: SampleFormat(0),
    read_format: 0,
    flags: AttrFlags(0),
    wakeup: 0,
    bp_type: 0,
    config1: 0,
    config2: 0,
    branch_sample_type: 0,
    sample_regs_user: 0,
    sample_stack_user: 0,
    clockid: 0,
    sample_regs_intr: 0,
    aux_watermark: 0,
    sample_max_stack: 0,
    aux_sample_size: 0,
    sig_data: 0,
    config3: 0,
};

/// The offsets of a record that is parsed by its format alone.
pub(crate) const NO_OFFSETS: RecordParseInfo = RecordParseInfo {
    endian: Endianness::LittleEndian,
    sample_format: SampleFormat(0),
    id_parse_info: RecordIdParseInfo {
        sample_id_from_start: None,
        other_id_from_end: None,
    },
    sample_time_from_start: None,
    other_time_from_end: None,
};

/// Reads an attribute, and returns it with its own size.
pub(crate) fn read_attr<R: Read>(
    endian: Endianness,
    reader: R,
) -> io::Result<(PerfEventAttr, u64)> {
    let mut source = Counted::new(reader);
    match endian {
        Endianness::LittleEndian => PerfEventAttr::parse_from::<_, LittleEndian>(&mut source),
        Endianness::BigEndian => PerfEventAttr::parse_from::<_, BigEndian>(&mut source),
    }
}
