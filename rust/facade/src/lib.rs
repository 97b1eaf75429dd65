//! Reads perf.data files and pipes of Linux perf and Android simpleperf, and jitdump files, under the names of
//! the crate linux-perf-data 0.13.0: a program that was written for that crate needs no change but in its
//! `Cargo.toml`.
//!
//! The library below is [`dewikura`](https://crates.io/crates/dewikura), whose sources are proved. This crate
//! holds and sorts its records, and gives its values the types of linux-perf-data. The README says what differs
//! from that crate, and what is proved.
//!
//! [`PerfFileReader`] opens a file or a pipe, and [`jitdump::JitDumpReader`] a jitdump file. Every call returns
//! on all bytes, and no number in an input reserves memory.
//!
//! ```no_run
//! use linux_perf_data::{AttributeDescription, PerfFileReader, PerfFileRecord};
//!
//! fn print_records(path: &str) -> Result<(), linux_perf_data::Error> {
//!     let file = std::fs::File::open(path)?;
//!     let PerfFileReader { mut perf_file, mut record_iter } = PerfFileReader::parse_file(file)?;
//!     for name in perf_file.event_attributes().iter().filter_map(AttributeDescription::name) {
//!         println!("event {name}");
//!     }
//!     while let Some(record) = record_iter.next_record(&mut perf_file)? {
//!         match record {
//!             PerfFileRecord::EventRecord { attr_index, record } => {
//!                 println!("event {attr_index}: {:?}", record.parse()?);
//!             }
//!             PerfFileRecord::UserRecord(record) => println!("{:?}", record.parse()?),
//!         }
//!     }
//!     Ok(())
//! }
//! ```

#![deny(missing_docs, unsafe_code)]

mod auxtrace;
mod bodies;
mod convert;
mod dso_info;
mod dso_key;
mod error;
mod features;
mod file_reader;
mod inner;
mod input;
pub mod jitdump;
#[cfg(not(feature = "event-reader"))]
pub mod linux_perf_event_reader;
mod perf_file;
mod record;
mod sections;
mod simpleperf;
mod source;
mod thread_map;

#[cfg(feature = "event-reader")]
pub use ::linux_perf_event_reader;

pub use crate::linux_perf_event_reader::Endianness;
pub use auxtrace::Auxtrace;
pub use dso_info::DsoInfo;
pub use dso_key::DsoKey;
pub use error::{DecodeError, Error, ReadError};
pub use features::{Feature, FeatureSet, FeatureSetIter};
pub use file_reader::{PerfFileReader, PerfRecordIter};
pub use perf_file::PerfFile;
pub use record::{
    HeaderAttr, HeaderFeature, PerfFileRecord, RawUserRecord, UserRecord, UserRecordType,
};
pub use sections::{AttributeDescription, CompressionInfo, NrCpus, SampleTimeRange};
pub use simpleperf::{
    SimpleperfDexFileInfo, SimpleperfElfFileInfo, SimpleperfFileRecord, SimpleperfKernelModuleInfo,
    SimpleperfSymbol, SimpleperfTypeSpecificInfo, simpleperf_dso_type,
};
pub use thread_map::ThreadMap;
