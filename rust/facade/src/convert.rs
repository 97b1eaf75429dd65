//! Conversions between the types of the library and those of [`linux_perf_event_reader`].
//!
//! They use only what the crate of that name has too, which takes the module's part with the feature
//! `event-reader`.

use crate::inner;
use crate::linux_perf_event_reader::{
    CpuMode, Endianness, PerfEventAttr, RawData, RecordParseInfo,
};
use byteorder::ByteOrder;
use std::io;

#[inline]
pub(crate) fn endian(endian: inner::Endianness) -> Endianness {
    match endian {
        inner::Endianness::LittleEndian => Endianness::LittleEndian,
        inner::Endianness::BigEndian => Endianness::BigEndian,
    }
}

#[inline]
pub(crate) fn inner_endian(endian: Endianness) -> inner::Endianness {
    match endian {
        Endianness::LittleEndian => inner::Endianness::LittleEndian,
        Endianness::BigEndian => inner::Endianness::BigEndian,
    }
}

// The byte order of a type of the crate byteorder.
#[inline]
pub(crate) fn endian_of<T: ByteOrder>() -> Endianness {
    if T::read_u16(&[1, 0]) == 1 {
        Endianness::LittleEndian
    } else {
        Endianness::BigEndian
    }
}

#[inline]
pub(crate) fn inner_endian_of<T: ByteOrder>() -> inner::Endianness {
    inner_endian(endian_of::<T>())
}

#[inline]
pub(crate) fn raw_data(bytes: inner::RawData<'_>) -> RawData<'_> {
    match bytes {
        inner::RawData::Single(all) => RawData::Single(all),
        inner::RawData::Split(first, second) => RawData::Split(first, second),
    }
}

#[inline]
pub(crate) fn inner_raw_data(bytes: RawData<'_>) -> inner::RawData<'_> {
    match bytes {
        RawData::Single(all) => inner::RawData::Single(all),
        RawData::Split(first, second) => inner::RawData::Split(first, second),
    }
}

pub(crate) fn inner_cpu_mode(mode: CpuMode) -> inner::CpuMode {
    match mode {
        CpuMode::Kernel => inner::CpuMode::Kernel,
        CpuMode::User => inner::CpuMode::User,
        CpuMode::Hypervisor => inner::CpuMode::Hypervisor,
        CpuMode::GuestKernel => inner::CpuMode::GuestKernel,
        CpuMode::GuestUser => inner::CpuMode::GuestUser,
        _ => inner::CpuMode::Unknown,
    }
}

// The attribute with these numbers. It fails if its type or its clock isn't known.
#[cfg(not(feature = "event-reader"))]
pub(crate) fn attr(numbers: &inner::PerfEventAttr) -> io::Result<PerfEventAttr> {
    PerfEventAttr::from_numbers(numbers)
}

#[cfg(feature = "event-reader")]
pub(crate) fn attr(numbers: &inner::PerfEventAttr) -> io::Result<PerfEventAttr> {
    let bytes = inner::attr_bytes(numbers);
    let (attr, _) = PerfEventAttr::parse::<_, byteorder::LittleEndian>(&bytes[..])?;
    Ok(attr)
}

// The fields of the records of an attribute.
#[cfg(not(feature = "event-reader"))]
pub(crate) fn parse_info(
    numbers: &inner::PerfEventAttr,
    endian: inner::Endianness,
) -> io::Result<RecordParseInfo> {
    Ok(RecordParseInfo::of_numbers(numbers, endian))
}

#[cfg(feature = "event-reader")]
pub(crate) fn parse_info(
    numbers: &inner::PerfEventAttr,
    order: inner::Endianness,
) -> io::Result<RecordParseInfo> {
    Ok(RecordParseInfo::new(&attr(numbers)?, endian(order)))
}
