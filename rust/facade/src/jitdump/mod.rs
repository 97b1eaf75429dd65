//! Jitdump files, which the runtimes of just-in-time compilers write beside a profile, usually as
//! `jit-PID.dump`.
//!
//! A file has a header and records on code that is generated or moved, on its source locations and on its
//! unwinding information.
//!
//! ```no_run
//! use linux_perf_data::jitdump::{JitDumpReader, JitDumpRecord};
//!
//! fn print_functions(path: &str) -> Result<(), Box<dyn std::error::Error>> {
//!     let mut reader = JitDumpReader::new(std::fs::File::open(path)?)?;
//!     while let Some(raw) = reader.next_record()? {
//!         if let JitDumpRecord::CodeLoad(load) = raw.parse()? {
//!             let name = load.function_name.as_slice();
//!             println!("{:x} {}", load.code_addr, String::from_utf8_lossy(&name));
//!         }
//!     }
//!     Ok(())
//! }
//! ```

mod error;
mod header;
mod reader;
mod record;
mod records;

pub use error::JitDumpError;
pub use header::JitDumpHeader;
pub use reader::JitDumpReader;
pub use record::{JitDumpRawRecord, JitDumpRecord, JitDumpRecordHeader, JitDumpRecordType};
pub use records::{
    JitCodeDebugInfoEntry, JitCodeDebugInfoRecord, JitCodeLoadRecord, JitCodeMoveRecord,
    JitCodeUnwindingInfoRecord,
};
