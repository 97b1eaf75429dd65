//! Samples.

use crate::convert;
use crate::inner;
use crate::linux_perf_event_reader::{CpuMode, RawData, RawDataU64, RecordParseInfo, Regs};
use byteorder::ByteOrder;
use std::io;

/// A sample (`PERF_RECORD_SAMPLE`). A field is `None` if the attribute doesn't select it.
#[derive(Debug, Clone, PartialEq, Eq)]
pub struct SampleRecord<'a> {
    /// The identifier of the event.
    pub id: Option<u64>,
    /// The address in memory.
    pub addr: Option<u64>,
    /// The identifier of the event itself, also if another task inherited it.
    pub stream_id: Option<u64>,
    /// Raw data, as of a tracepoint.
    pub raw: Option<RawData<'a>>,
    /// The address of the instruction.
    pub ip: Option<u64>,
    /// The time.
    pub timestamp: Option<u64>,
    /// The process.
    pub pid: Option<i32>,
    /// The thread.
    pub tid: Option<i32>,
    /// The processor.
    pub cpu: Option<u32>,
    /// The number of events since the previous sample.
    pub period: Option<u64>,
    /// The registers of the program; also `None` if the sample was taken without any.
    pub user_regs: Option<Regs<'a>>,
    /// A copy of the start of the program's stack, and the number of its bytes that are valid.
    pub user_stack: Option<(RawData<'a>, u64)>,
    /// The call chain: addresses, and values that start a context (`PERF_CONTEXT_*`).
    pub callchain: Option<RawDataU64<'a>>,
    /// The physical address of the data.
    pub phys_addr: Option<u64>,
    /// The size of the page of the data, in bytes.
    pub data_page_size: Option<u64>,
    /// The size of the page of the instruction, in bytes.
    pub code_page_size: Option<u64>,
    /// The mode of the processor.
    pub cpu_mode: CpuMode,
}

impl<'a> SampleRecord<'a> {
    /// Parses the body of a sample, with numbers in the byte order `T`. `misc` is that of the record header.
    ///
    /// It fails with `UnexpectedEof` if the fields are truncated, and with `InvalidData` if the attribute
    /// selects a field whose offset isn't known.
    pub fn parse<T: ByteOrder>(
        data: RawData<'a>,
        misc: u16,
        parse_info: &RecordParseInfo,
    ) -> Result<Self, io::Error> {
        let format = parse_info.format_in::<T>();
        if !format.has_known_fields() {
            return Err(io::Error::from(io::ErrorKind::InvalidData));
        }
        Self::parse_format(data, misc, &format)
    }

    // Parses the body of a sample of a format whose offsets are known.
    #[inline]
    pub(crate) fn parse_format(
        data: RawData<'a>,
        misc: u16,
        format: &inner::EventFormat,
    ) -> io::Result<Self> {
        let mut fields = convert::inner_raw_data(data);
        let sample = inner::SampleRecord::parse(format, &mut fields)?;
        let mask = format.sample_regs_user;
        let user_regs = match sample.user_registers {
            Some(registers) if registers.abi != 0 => Some(Regs::new(mask, registers.values.into())),
            _ => None,
        };
        Ok(Self {
            id: sample.identifier.or(sample.id),
            addr: sample.address,
            stream_id: sample.stream_id,
            raw: sample.raw.map(convert::raw_data),
            ip: sample.ip,
            timestamp: sample.timestamp,
            pid: sample.task.map(|task| task.pid),
            tid: sample.task.map(|task| task.tid),
            cpu: sample.cpu,
            period: sample.period,
            user_regs,
            user_stack: sample.user_stack.map(|stack| {
                let size = stack.dynamic_size.unwrap_or(0);
                (convert::raw_data(stack.bytes), size)
            }),
            callchain: sample.call_chain.map(|chain| chain.values.into()),
            phys_addr: sample.physical_address,
            data_page_size: sample.data_page_size,
            code_page_size: sample.code_page_size,
            cpu_mode: CpuMode::from_misc(misc),
        })
    }
}
