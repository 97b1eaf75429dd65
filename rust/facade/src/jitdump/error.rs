//! The error of opening a jitdump file.

use crate::inner;
use std::io;
use thiserror::Error;

/// The error of opening a jitdump file.
#[derive(Error, Debug)]
pub enum JitDumpError {
    /// The file ends before the end of its header, or the buffer is smaller than the header.
    #[error("The file does not contain enough bytes to parse the jitdump header.")]
    NotEnoughBytesForHeader,
    /// The size of the header in the header itself, which is below 40.
    #[error("Invalid jitdump header size: {0}")]
    InvalidHeaderSize(u32),
    /// The first four bytes, which are those of no jitdump file.
    #[error("The file does not appear to be a jitdump file, due to unexpected magic bytes: {:02x} {:02x} {:02x} {:02x}", .0[0], .0[1], .0[2], .0[3])]
    InvalidMagicBytes([u8; 4]),
    /// Never returned: files of all versions are read in the same way.
    #[error("The jitdump file has an unrecognized version: {0}")]
    UnrecognizedVersion(u32),
    /// The reader failed, or memory ran out (kind `OutOfMemory`).
    #[error("Failed to read from the jitdump file: {0}")]
    Io(#[from] io::Error),
}

impl From<inner::jit::JitDumpError> for JitDumpError {
    fn from(error: inner::jit::JitDumpError) -> Self {
        use inner::jit::JitDumpError as Inner;
        match error {
            Inner::NotEnoughBytesForHeader => Self::NotEnoughBytesForHeader,
            Inner::InvalidHeaderSize(size) => Self::InvalidHeaderSize(size),
            Inner::InvalidMagicBytes(magic) => Self::InvalidMagicBytes(magic),
            Inner::UnrecognizedVersion(version) => Self::UnrecognizedVersion(version),
            Inner::Io(error) => Self::Io(error),
        }
    }
}
