//! Readers of Linux perf.data files, pipes and jitdumps, and what stands on them.
//!
//! Each module but [`shim`] is a crate of the repository, written in Rattle, which is Rust with contracts. The
//! build takes the contracts out. What is left stands on [`shim`] in place of Rattle's standard library: types
//! of which each allocation can fail without ending the process.
//!
//! ```
//! use dewikura::linux_perf_data::PerfFileReader;
//! use dewikura::shim::std::alloc::Global;
//! use dewikura::perfdata_base::source::Counted;
//!
//! let opened = PerfFileReader::parse_file(Global, Counted::new(std::io::Cursor::new(b"no perf.data")));
//! assert!(opened.is_err());
//! ```

pub mod shim;

include!(concat!(env!("OUT_DIR"), "/lib.rs"));
