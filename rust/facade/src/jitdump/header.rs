//! The header of a jitdump file.

use crate::convert;
use crate::inner;
use crate::jitdump::JitDumpError;
use crate::linux_perf_event_reader::RawData;
use byteorder::{BigEndian, ByteOrder, LittleEndian};
use std::io;

/// The header of a jitdump file.
#[derive(Debug, Clone)]
pub struct JitDumpHeader {
    /// `JiTD` in the byte order of the file, which it tells.
    pub magic: [u8; 4],
    /// The version of the format, which is 1.
    pub version: u32,
    /// The size of the header in bytes, which is the offset of the first record.
    pub total_size: u32,
    /// The machine of the code, as `e_machine` of an ELF file.
    pub elf_machine_arch: u32,
    /// The process that runs the code.
    pub pid: u32,
    /// The time at which the file was created.
    pub timestamp: u64,
    /// Bit 0: the times are those of the processor's time stamp counter.
    pub flags: u64,
}

impl JitDumpHeader {
    /// The number of bytes of a header that have a meaning, and its minimum size.
    pub const SIZE: usize = inner::jit::JitDumpHeader::SIZE;

    pub(crate) fn of(header: &inner::jit::JitDumpHeader) -> Self {
        Self {
            magic: header.magic,
            version: header.version,
            total_size: header.total_size,
            elf_machine_arch: header.elf_machine_arch,
            pid: header.pid,
            timestamp: header.timestamp,
            flags: header.flags,
        }
    }

    /// Parses the header at the start of the bytes, which must contain all of it.
    ///
    /// It fails with [`JitDumpError::NotEnoughBytesForHeader`] if they don't, with
    /// [`JitDumpError::InvalidMagicBytes`] if the first four are those of no jitdump file, and with
    /// [`JitDumpError::InvalidHeaderSize`] if the size in the header is below 40.
    pub fn parse(data: RawData<'_>) -> Result<Self, JitDumpError> {
        let header = inner::jit::JitDumpHeader::parse(convert::inner_raw_data(data))?;
        Ok(Self::of(&header))
    }

    /// Parses the header after its magic, with numbers in the byte order `O`. Its size may be below 40.
    ///
    /// It fails with `UnexpectedEof` if there are fewer bytes than the header has.
    pub fn parse_after_magic<O: ByteOrder>(
        magic: [u8; 4],
        data: RawData<'_>,
    ) -> Result<Self, io::Error> {
        let bytes = convert::inner_raw_data(data);
        let header = match convert::inner_endian_of::<O>() {
            inner::Endianness::LittleEndian => {
                inner::jit::JitDumpHeader::parse_after_magic::<LittleEndian>(magic, bytes)?
            }
            inner::Endianness::BigEndian => {
                inner::jit::JitDumpHeader::parse_after_magic::<BigEndian>(magic, bytes)?
            }
        };
        Ok(Self::of(&header))
    }
}
