//! Record headers, and attributes of events.

use crate::convert;
use crate::inner;
use crate::linux_perf_event_reader::{
    AttrFlags, BranchSampleFormat, ClockId, PerfEventType, ReadFormat, SampleFormat,
};
use byteorder::ByteOrder;
use std::io::{self, Read};
use std::num::NonZeroU64;

/// The header of a record (`perf_event_header` of Linux's `perf_event.h`).
#[derive(Debug, Clone, Copy)]
pub struct PerfEventHeader {
    /// The record's type.
    pub type_: u32,
    /// Bits of the record, among them the processor's mode.
    pub misc: u16,
    /// The size of the record in bytes, with its header.
    pub size: u16,
}

impl PerfEventHeader {
    /// The size of a record header in bytes.
    pub const STRUCT_SIZE: usize = 8;

    /// Reads a record header: its type of four bytes, its misc and its size of two, in the byte order `T`.
    ///
    /// It fails with `UnexpectedEof` if there are fewer bytes, and with the reader's own error.
    pub fn parse<R: Read, T: ByteOrder>(mut reader: R) -> Result<Self, io::Error> {
        let mut bytes = [0; Self::STRUCT_SIZE];
        reader.read_exact(&mut bytes)?;
        let header = inner::PerfEventHeader::from_bytes(convert::inner_endian_of::<T>(), &bytes);
        Ok(Self {
            type_: header.type_,
            misc: header.misc,
            size: header.size,
        })
    }
}

/// The attribute of an event (`perf_event_attr` of Linux's `perf_event.h`): what is recorded, and how.
#[derive(Debug, Clone, Copy)]
pub struct PerfEventAttr {
    /// What the event counts.
    pub type_: PerfEventType,
    /// When a sample is written.
    pub sampling_policy: SamplingPolicy,
    /// The fields of a sample (`sample_type`).
    pub sample_format: SampleFormat,
    /// The fields of counter values.
    pub read_format: ReadFormat,
    /// What is recorded besides samples, and how.
    pub flags: AttrFlags,
    /// When the recorder is woken.
    pub wakeup_policy: WakeupPolicy,
    /// The branches and the fields of a branch stack.
    pub branch_sample_format: BranchSampleFormat,
    /// The registers of the program in a sample, as bits (`PERF_REG_*`).
    pub sample_regs_user: u64,
    /// The number of bytes of the program's stack in a sample.
    pub sample_stack_user: u32,
    /// The clock of the times.
    pub clock: PerfClock,
    /// The registers at the interrupt in a sample, as bits (`PERF_REG_*`).
    pub sample_regs_intr: u64,
    /// The number of bytes of the AUX area before the recorder is woken.
    pub aux_watermark: u32,
    /// The maximum number of frames of a call chain.
    pub sample_max_stack: u16,
    /// The number of bytes of the AUX area in a sample.
    pub aux_sample_size: u32,
    /// The number that a signal of the event carries.
    pub sig_data: u64,
}

/// When a sample is written.
#[derive(Debug, Clone, Copy)]
pub enum SamplingPolicy {
    /// Never: the event only counts.
    NoSampling,
    /// After this number of events.
    Period(NonZeroU64),
    /// This many times a second. The kernel adapts the period, which is in the field PERIOD of a sample.
    Frequency(u64),
}

/// When the recorder is woken.
#[derive(Debug, Clone, Copy)]
pub enum WakeupPolicy {
    /// After this number of samples.
    EventCount(u32),
    /// After this number of bytes.
    Watermark(u32),
}

/// The clock of the times.
#[derive(Debug, Clone, Copy)]
pub enum PerfClock {
    /// The kernel's own clock, `local_clock()`.
    Default,
    /// The clock with this number.
    ClockId(ClockId),
}

// The result of an attribute whose type or clock isn't known.
fn known<T>(value: Option<T>) -> io::Result<T> {
    value.ok_or_else(|| io::Error::from(io::ErrorKind::InvalidInput))
}

impl PerfEventAttr {
    /// Reads an attribute in the byte order `T`, and returns it with its own size, the number of bytes that
    /// were read.
    ///
    /// An own size of 0 means 64. Fields beyond the own size are 0. It fails with `UnexpectedEof` if there
    /// are fewer bytes than the own size, with `InvalidData` if the own size is 1 to 63, and with
    /// `InvalidInput` if the type of event or the clock isn't known.
    pub fn parse<R: Read, T: ByteOrder>(reader: R) -> Result<(Self, u64), io::Error> {
        let (numbers, size) = inner::read_attr(convert::inner_endian_of::<T>(), reader)?;
        Ok((Self::from_numbers(&numbers)?, size))
    }

    // Names the numbers of an attribute.
    pub(crate) fn from_numbers(numbers: &inner::PerfEventAttr) -> io::Result<Self> {
        let flags = AttrFlags::from_bits_truncate(numbers.flags.0);
        let type_ = PerfEventType::parse(
            numbers.type_,
            numbers.bp_type,
            numbers.config,
            numbers.config1,
            numbers.config2,
        );
        let clock = if flags.contains(AttrFlags::USE_CLOCKID) {
            PerfClock::ClockId(known(ClockId::from_u32(numbers.clockid.cast_unsigned()))?)
        } else {
            PerfClock::Default
        };
        Ok(Self {
            type_: known(type_)?,
            sampling_policy: SamplingPolicy::new(flags, numbers.period_or_freq),
            sample_format: SampleFormat::from_bits_truncate(numbers.sample_format.0),
            read_format: ReadFormat::from_bits_truncate(numbers.read_format),
            flags,
            wakeup_policy: WakeupPolicy::new(flags, numbers.wakeup),
            branch_sample_format: BranchSampleFormat::from_bits_truncate(
                numbers.branch_sample_type,
            ),
            sample_regs_user: numbers.sample_regs_user,
            sample_stack_user: numbers.sample_stack_user,
            clock,
            sample_regs_intr: numbers.sample_regs_intr,
            aux_watermark: numbers.aux_watermark,
            sample_max_stack: numbers.sample_max_stack,
            aux_sample_size: numbers.aux_sample_size,
            sig_data: numbers.sig_data,
        })
    }
}

impl SamplingPolicy {
    fn new(flags: AttrFlags, period_or_frequency: u64) -> Self {
        if flags.contains(AttrFlags::FREQ) {
            return Self::Frequency(period_or_frequency);
        }
        NonZeroU64::new(period_or_frequency).map_or(Self::NoSampling, Self::Period)
    }
}

impl WakeupPolicy {
    fn new(flags: AttrFlags, count: u32) -> Self {
        if flags.contains(AttrFlags::WATERMARK) {
            Self::Watermark(count)
        } else {
            Self::EventCount(count)
        }
    }
}
