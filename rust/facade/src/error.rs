//! Errors.

use crate::inner;
use std::collections::TryReserveError;
use std::fmt;
use std::io;
use std::str::Utf8Error;
use thiserror::Error;

/// The error of opening or reading a file or a pipe.
#[derive(Error, Debug)]
#[non_exhaustive]
pub enum Error {
    /// A part of the file is truncated, or can't be at the offset that the file states.
    #[error("Read error: {0}")]
    Read(#[from] ReadError),
    /// The reader failed, or the input is truncated and no [`ReadError`] applies. Without feature `zstd` a
    /// compressed record is an error of kind `Unsupported`, with it of kind `InvalidData` if its data can't be
    /// read.
    #[error("I/O error: {0}")]
    IoError(#[from] io::Error),
    /// The first eight bytes, which are those of no perf.data file.
    #[error("Did not recognize magic value {0:?}")]
    UnrecognizedMagicValue([u8; 8]),
    /// Never returned: sizes have 64 bits.
    #[error("Section size did not fit into usize")]
    SectionSizeTooBig,
    /// The input has no attribute.
    #[error("The file declares no perf event attributes, so samples cannot be parsed")]
    NoAttributes,
    /// The own size of an attribute and the size that the file has for each, in bytes. The first is above the
    /// second.
    #[error(
        "Inconsistent attribute sizes: The self-reported size in the attribute was {0} bytes, which is larger than the the attribute size specified in the file header ({1} bytes)"
    )]
    InconsistentAttributeSizes(u64, u64),
    /// The index of the first attribute without IDENTIFIER, in an input whose attributes differ.
    #[error("The file contains multiple events but attr {0} does not specify IDENTIFIER")]
    NoIdentifierDespiteMultiEvent(usize),
    /// The index of the first attribute whose SAMPLE_ID_ALL differs from that of the first one.
    #[error(
        "The file contains multiple events but attr {0} does not agree with attr zero about SAMPLE_ID_ALL"
    )]
    InconsistentSampleIdAllWithMultiEvent(usize),
    /// The section of a string has fewer than four bytes.
    #[error("The section wasn't big enough to contain the u32 string length")]
    NotEnoughSpaceForStringLen,
    /// The section of a list of strings has fewer than four bytes.
    #[error("The section wasn't big enough to contain the u32 string list length")]
    NotEnoughSpaceForStringListLen,
    /// A section has too few bytes.
    #[error("The feature section wasn't big enough")]
    FeatureSectionTooSmall,
    /// Simpleperf's meta info has no event types, or one that isn't of the form name, type, config.
    #[error("No event types found in the simpleperf meta info section")]
    NoEventTypesInSimpleperfMetaInfo,
    /// A message of the section SIMPLEPERF_FILE2 can't be decoded.
    #[error("Protobuf parsing error in Simpleperf file feature: {0}")]
    ProtobufParsingSimpleperfFileSection(DecodeError),
    /// A record of the section SIMPLEPERF_FILE is truncated or invalid.
    #[error("Parsing error in Simpleperf file v1 feature: {0}")]
    ParsingSimpleperfFileV1Section(io::Error),
    /// The length of a string is above the size of its section.
    #[error("The indicated string length wouldn't fit in the indicated section size")]
    StringLengthTooLong,
    /// Never returned: a count of four bytes fits into `usize`.
    #[error("The indicated string list length wouldn't fit into usize")]
    StringListLengthBiggerThanUsize,
    /// Never returned: a length of four bytes fits into `usize`.
    #[error("The indicated string length wouldn't fit into usize")]
    StringLengthBiggerThanUsize,
    /// A string isn't valid UTF-8.
    #[error("The string was not valid utf-8")]
    StringUtf8,
    /// The size in a record header is below 8, the size of the record header itself.
    #[error("The specified size in the perf event header was smaller than the header itself")]
    InvalidPerfEventSize,
    /// An earlier call of the iterator failed, and nothing more is read.
    #[error("An earlier call has failed")]
    Failed,
    /// Memory ran out.
    #[error("Out of memory")]
    OutOfMemory,
}

/// The part of a file that could not be read.
#[derive(Error, Debug, Clone, Copy, PartialEq, Eq)]
#[non_exhaustive]
pub enum ReadError {
    /// The file header.
    #[error("Could not read PerfHeader")]
    PerfHeader,
    /// The sections of the features: the data section ends past 2^64 - 1, and none can follow it.
    #[error("Could not read FeatureSection")]
    FeatureSection,
    /// The section of the build ids.
    #[error("Could not read BuildIdSection")]
    BuildIdSection,
    /// The length of a string.
    #[error("Could not read StringLen")]
    StringLen,
    /// A string.
    #[error("Could not read String")]
    String,
    /// The numbers of processors.
    #[error("Could not read NrCpus")]
    NrCpus,
    /// The section of the attributes.
    #[error("Could not read AttrsSection")]
    AttrsSection,
    /// An attribute is truncated, or of a type or a clock that isn't known.
    #[error("Could not read PerfEventAttr")]
    PerfEventAttr,
    /// A record header.
    #[error("Could not read PerfEventHeader")]
    PerfEventHeader,
    /// The body of a record is truncated or can't be read.
    #[error("Could not read PerfEvent data")]
    PerfEventData,
}

/// The error of decoding a protobuf message.
#[derive(Clone, Debug, PartialEq, Eq)]
pub struct DecodeError(inner::DecodeError);

impl fmt::Display for DecodeError {
    fn fmt(&self, f: &mut fmt::Formatter<'_>) -> fmt::Result {
        f.write_str("failed to decode Protobuf message: ")?;
        f.write_str(match self.0 {
            inner::DecodeError::Truncated => "a value is truncated",
            inner::DecodeError::Varint => "a number has more than 64 bits",
            inner::DecodeError::Key => "a field's key is invalid",
            inner::DecodeError::WireType => "a field's wire type is invalid",
            inner::DecodeError::Group => "the end of a group doesn't match its start",
            inner::DecodeError::Depth => "groups are nested too deep",
            inner::DecodeError::Utf8 => "a string isn't valid UTF-8",
            inner::DecodeError::Memory => "out of memory",
        })
    }
}

impl std::error::Error for DecodeError {}

impl From<Utf8Error> for Error {
    fn from(_: Utf8Error) -> Self {
        Error::StringUtf8
    }
}

impl From<inner::AllocError> for Error {
    fn from(_: inner::AllocError) -> Self {
        Error::OutOfMemory
    }
}

impl From<TryReserveError> for Error {
    fn from(_: TryReserveError) -> Self {
        Error::OutOfMemory
    }
}

impl From<inner::ReadError> for ReadError {
    fn from(part: inner::ReadError) -> Self {
        match part {
            inner::ReadError::PerfHeader => Self::PerfHeader,
            inner::ReadError::FeatureSection => Self::FeatureSection,
            inner::ReadError::BuildIdSection => Self::BuildIdSection,
            inner::ReadError::StringLen => Self::StringLen,
            inner::ReadError::String => Self::String,
            inner::ReadError::NrCpus => Self::NrCpus,
            inner::ReadError::AttrsSection => Self::AttrsSection,
            inner::ReadError::PerfEventAttr => Self::PerfEventAttr,
            inner::ReadError::PerfEventHeader => Self::PerfEventHeader,
            inner::ReadError::PerfEventData => Self::PerfEventData,
        }
    }
}

impl From<inner::Error> for Error {
    fn from(error: inner::Error) -> Self {
        use inner::Error as Inner;
        match error {
            Inner::Read(part) => Self::Read(part.into()),
            Inner::IoError(error) => Self::IoError(error),
            Inner::UnrecognizedMagicValue(magic) => Self::UnrecognizedMagicValue(magic),
            Inner::SectionSizeTooBig => Self::SectionSizeTooBig,
            Inner::NoAttributes => Self::NoAttributes,
            Inner::InconsistentAttributeSizes(own, other) => {
                Self::InconsistentAttributeSizes(own, other)
            }
            Inner::NoIdentifierDespiteMultiEvent(index) => {
                Self::NoIdentifierDespiteMultiEvent(index)
            }
            Inner::InconsistentSampleIdAllWithMultiEvent(index) => {
                Self::InconsistentSampleIdAllWithMultiEvent(index)
            }
            Inner::NotEnoughSpaceForStringLen => Self::NotEnoughSpaceForStringLen,
            Inner::NotEnoughSpaceForStringListLen => Self::NotEnoughSpaceForStringListLen,
            Inner::FeatureSectionTooSmall => Self::FeatureSectionTooSmall,
            Inner::NoEventTypesInSimpleperfMetaInfo => Self::NoEventTypesInSimpleperfMetaInfo,
            Inner::ProtobufParsingSimpleperfFileSection(error) => {
                Self::ProtobufParsingSimpleperfFileSection(DecodeError(error))
            }
            Inner::ParsingSimpleperfFileV1Section(error) => {
                Self::ParsingSimpleperfFileV1Section(error)
            }
            Inner::StringLengthTooLong => Self::StringLengthTooLong,
            Inner::StringListLengthBiggerThanUsize => Self::StringListLengthBiggerThanUsize,
            Inner::StringLengthBiggerThanUsize => Self::StringLengthBiggerThanUsize,
            Inner::StringUtf8 => Self::StringUtf8,
            Inner::InvalidPerfEventSize => Self::InvalidPerfEventSize,
            Inner::Failed => Self::Failed,
            Inner::Memory => Self::OutOfMemory,
        }
    }
}
