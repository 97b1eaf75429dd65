//! Parsed kernel records.

use crate::convert;
use crate::inner;
use crate::linux_perf_event_reader::raw_data::Hex;
use crate::linux_perf_event_reader::{CpuMode, RawData, RawEventRecord, SampleRecord};
use byteorder::ByteOrder;
use std::fmt;
use std::io;

/// A kernel record, parsed by its type.
#[derive(Debug, Clone, PartialEq, Eq)]
#[allow(clippy::large_enum_variant)]
#[non_exhaustive]
pub enum EventRecord<'a> {
    /// A sample.
    Sample(SampleRecord<'a>),
    /// The name of a task.
    Comm(CommOrExecRecord<'a>),
    /// The end of a task.
    Exit(ForkOrExitRecord),
    /// A new task.
    Fork(ForkOrExitRecord),
    /// A mapping.
    Mmap(MmapRecord<'a>),
    /// A mapping with the identity of its file.
    Mmap2(Mmap2Record<'a>),
    /// Records that were lost because the buffer was full.
    Lost(LostRecord),
    /// The kernel limits the samples of an event.
    Throttle(ThrottleRecord),
    /// The kernel no longer limits the samples of an event.
    Unthrottle(ThrottleRecord),
    /// A switch of the recorded task.
    ContextSwitch(ContextSwitchRecord),
    /// A record of any other type, or a sample with a field whose offset isn't known.
    Raw(RawEventRecord<'a>),
}

// Parses a body by a function of the library, which removes the fields from it.
fn parse_fields<'a, T>(
    data: RawData<'a>,
    parse: impl FnOnce(&mut inner::RawData<'a>) -> io::Result<T>,
) -> io::Result<T> {
    parse(&mut convert::inner_raw_data(data))
}

/// A task that began or ended (`PERF_RECORD_FORK`, `PERF_RECORD_EXIT`).
#[derive(Debug, Clone, PartialEq, Eq)]
pub struct ForkOrExitRecord {
    /// The process.
    pub pid: i32,
    /// The process of the parent.
    pub ppid: i32,
    /// The thread.
    pub tid: i32,
    /// The thread of the parent.
    pub ptid: i32,
    /// The time.
    pub timestamp: u64,
}

impl ForkOrExitRecord {
    /// Parses a body, with numbers in the byte order `T`.
    ///
    /// It fails with `UnexpectedEof` if the fields are truncated.
    pub fn parse<T: ByteOrder>(data: RawData<'_>) -> Result<Self, io::Error> {
        let endian = convert::inner_endian_of::<T>();
        parse_fields(data, |fields| {
            inner::ForkOrExitRecord::parse(endian, fields)
        })
        .map(Self::from)
    }
}

impl From<inner::ForkOrExitRecord> for ForkOrExitRecord {
    fn from(record: inner::ForkOrExitRecord) -> Self {
        Self {
            pid: record.pid,
            ppid: record.ppid,
            tid: record.tid,
            ptid: record.ptid,
            timestamp: record.timestamp,
        }
    }
}

/// The name of a task (`PERF_RECORD_COMM`).
#[derive(Clone, PartialEq, Eq)]
pub struct CommOrExecRecord<'a> {
    /// The process.
    pub pid: i32,
    /// The thread.
    pub tid: i32,
    /// The name.
    pub name: RawData<'a>,
    /// Whether the task executed another program.
    pub is_execve: bool,
}

impl<'a> CommOrExecRecord<'a> {
    /// Parses a body, with numbers in the byte order `T`. `misc` is that of the record header.
    ///
    /// It fails with `UnexpectedEof` if the fields are truncated, and with `InvalidData` if the name has no
    /// NUL.
    pub fn parse<T: ByteOrder>(data: RawData<'a>, misc: u16) -> Result<Self, io::Error> {
        let endian = convert::inner_endian_of::<T>();
        parse_fields(data, |fields| {
            inner::CommOrExecRecord::parse(endian, misc, fields)
        })
        .map(Self::from)
    }
}

impl<'a> From<inner::CommOrExecRecord<'a>> for CommOrExecRecord<'a> {
    fn from(record: inner::CommOrExecRecord<'a>) -> Self {
        Self {
            pid: record.pid,
            tid: record.tid,
            name: convert::raw_data(record.name),
            is_execve: record.is_execve,
        }
    }
}

/// Writes the name as a text if it is UTF-8.
impl fmt::Debug for CommOrExecRecord<'_> {
    fn fmt(&self, f: &mut fmt::Formatter<'_>) -> fmt::Result {
        let name = self.name.as_slice();
        let mut map = f.debug_map();
        map.entry(&"pid", &self.pid).entry(&"tid", &self.tid);
        match std::str::from_utf8(&name) {
            Ok(name) => map.entry(&"name", &name),
            Err(_) => map.entry(&"name", &self.name),
        };
        map.entry(&"is_execve", &self.is_execve).finish()
    }
}

/// A mapping (`PERF_RECORD_MMAP`). Today's kernels write [`Mmap2Record`]s; perf writes mappings of this type
/// for the kernel itself, with the process -1.
#[derive(Clone, PartialEq, Eq)]
pub struct MmapRecord<'a> {
    /// The process.
    pub pid: i32,
    /// The thread.
    pub tid: i32,
    /// The start address.
    pub address: u64,
    /// The length in bytes.
    pub length: u64,
    /// The offset in the file, in bytes.
    pub page_offset: u64,
    /// Whether the mapping is executable.
    pub is_executable: bool,
    /// The mode of the processor: the kernel's own mappings have that of the kernel.
    pub cpu_mode: CpuMode,
    /// The path of the file.
    pub path: RawData<'a>,
}

impl<'a> MmapRecord<'a> {
    /// Parses a body, with numbers in the byte order `T`. `misc` is that of the record header.
    ///
    /// It fails with `UnexpectedEof` if the fields are truncated, and with `InvalidData` if the path has no
    /// NUL.
    pub fn parse<T: ByteOrder>(data: RawData<'a>, misc: u16) -> Result<Self, io::Error> {
        let endian = convert::inner_endian_of::<T>();
        parse_fields(data, |fields| {
            inner::MmapRecord::parse(endian, misc, fields)
        })
        .map(|record| Self::new(record, misc))
    }

    fn new(record: inner::MmapRecord<'a>, misc: u16) -> Self {
        Self {
            pid: record.pid,
            tid: record.tid,
            address: record.address,
            length: record.length,
            page_offset: record.page_offset,
            is_executable: !record.is_data,
            cpu_mode: CpuMode::from_misc(misc),
            path: convert::raw_data(record.path),
        }
    }
}

impl fmt::Debug for MmapRecord<'_> {
    fn fmt(&self, f: &mut fmt::Formatter<'_>) -> fmt::Result {
        let path = self.path.as_slice();
        f.debug_map()
            .entry(&"pid", &self.pid)
            .entry(&"tid", &self.tid)
            .entry(&"address", &Hex(self.address))
            .entry(&"length", &Hex(self.length))
            .entry(&"page_offset", &Hex(self.page_offset))
            .entry(&"cpu_mode", &self.cpu_mode)
            .entry(&"path", &String::from_utf8_lossy(&path))
            .finish()
    }
}

/// The identity of a mapped file.
#[derive(Debug, Clone, PartialEq, Eq)]
pub enum Mmap2FileId {
    /// Its device and inode.
    InodeAndVersion(Mmap2InodeAndVersion),
    /// The bytes of its build id, at most 20.
    BuildId(Vec<u8>),
}

/// The device and the inode of a mapped file.
#[derive(Debug, Clone, PartialEq, Eq)]
pub struct Mmap2InodeAndVersion {
    /// The device's major number.
    pub major: u32,
    /// The device's minor number.
    pub minor: u32,
    /// The inode.
    pub inode: u64,
    /// The generation of the inode.
    pub inode_generation: u64,
}

impl From<inner::Mmap2FileId<'_>> for Mmap2FileId {
    fn from(id: inner::Mmap2FileId<'_>) -> Self {
        match id {
            inner::Mmap2FileId::InodeAndVersion(id) => {
                Self::InodeAndVersion(Mmap2InodeAndVersion {
                    major: id.major,
                    minor: id.minor,
                    inode: id.inode,
                    inode_generation: id.inode_generation,
                })
            }
            inner::Mmap2FileId::BuildId(id) => {
                Self::BuildId(convert::raw_data(id).as_slice().into_owned())
            }
        }
    }
}

/// A mapping with the identity of the mapped file (`PERF_RECORD_MMAP2`).
#[derive(Clone, PartialEq, Eq)]
pub struct Mmap2Record<'a> {
    /// The process.
    pub pid: i32,
    /// The thread.
    pub tid: i32,
    /// The start address.
    pub address: u64,
    /// The length in bytes.
    pub length: u64,
    /// The offset in the file, in bytes.
    pub page_offset: u64,
    /// The identity of the file.
    pub file_id: Mmap2FileId,
    /// The protection of the mapping, as bits (`PROT_*`).
    pub protection: u32,
    /// The flags of the mapping, as bits (`MAP_*`).
    pub flags: u32,
    /// The mode of the processor: the kernel's own mappings have that of the kernel.
    pub cpu_mode: CpuMode,
    /// The path of the file.
    pub path: RawData<'a>,
}

impl<'a> Mmap2Record<'a> {
    /// Parses a body, with numbers in the byte order `T`. `misc` is that of the record header.
    ///
    /// It fails with `UnexpectedEof` if the fields are truncated, and with `InvalidData` if the build id has
    /// more than 20 bytes or the path has no NUL.
    pub fn parse<T: ByteOrder>(data: RawData<'a>, misc: u16) -> Result<Self, io::Error> {
        let endian = convert::inner_endian_of::<T>();
        parse_fields(data, |fields| {
            inner::Mmap2Record::parse(endian, misc, fields)
        })
        .map(|record| Self::new(record, misc))
    }

    fn new(record: inner::Mmap2Record<'a>, misc: u16) -> Self {
        Self {
            pid: record.pid,
            tid: record.tid,
            address: record.address,
            length: record.length,
            page_offset: record.page_offset,
            file_id: record.file_id.into(),
            protection: record.protection,
            flags: record.flags,
            cpu_mode: CpuMode::from_misc(misc),
            path: convert::raw_data(record.path),
        }
    }
}

impl fmt::Debug for Mmap2Record<'_> {
    fn fmt(&self, f: &mut fmt::Formatter<'_>) -> fmt::Result {
        let path = self.path.as_slice();
        f.debug_map()
            .entry(&"pid", &self.pid)
            .entry(&"tid", &self.tid)
            .entry(&"address", &Hex(self.address))
            .entry(&"length", &Hex(self.length))
            .entry(&"page_offset", &Hex(self.page_offset))
            .entry(&"protection", &Hex(self.protection.into()))
            .entry(&"flags", &Hex(self.flags.into()))
            .entry(&"cpu_mode", &self.cpu_mode)
            .entry(&"path", &String::from_utf8_lossy(&path))
            .finish()
    }
}

/// Records that the kernel dropped because the buffer was full (`PERF_RECORD_LOST`).
#[derive(Debug, Clone, PartialEq, Eq)]
pub struct LostRecord {
    /// The identifier of the event.
    pub id: u64,
    /// The number of dropped records.
    pub count: u64,
}

impl LostRecord {
    /// Parses a body, with numbers in the byte order `T`.
    ///
    /// It fails with `UnexpectedEof` if the fields are truncated.
    pub fn parse<T: ByteOrder>(data: RawData<'_>) -> Result<Self, io::Error> {
        let endian = convert::inner_endian_of::<T>();
        parse_fields(data, |fields| inner::LostRecord::parse(endian, fields)).map(Self::from)
    }
}

impl From<inner::LostRecord> for LostRecord {
    fn from(record: inner::LostRecord) -> Self {
        Self {
            id: record.id,
            count: record.count,
        }
    }
}

/// An event whose samples the kernel began or ceased to limit (`PERF_RECORD_THROTTLE`,
/// `PERF_RECORD_UNTHROTTLE`).
#[derive(Debug, Clone, PartialEq, Eq)]
pub struct ThrottleRecord {
    /// The identifier of the event.
    pub id: u64,
    /// The time.
    pub timestamp: u64,
}

impl ThrottleRecord {
    /// Parses a body, with numbers in the byte order `T`.
    ///
    /// It fails with `UnexpectedEof` if the fields are truncated, of which the third isn't returned.
    pub fn parse<T: ByteOrder>(data: RawData<'_>) -> Result<Self, io::Error> {
        let endian = convert::inner_endian_of::<T>();
        parse_fields(data, |fields| inner::ThrottleRecord::parse(endian, fields)).map(Self::from)
    }
}

impl From<inner::ThrottleRecord> for ThrottleRecord {
    fn from(record: inner::ThrottleRecord) -> Self {
        Self {
            id: record.id,
            timestamp: record.timestamp,
        }
    }
}

/// A switch of the recorded task (`PERF_RECORD_SWITCH`, `PERF_RECORD_SWITCH_CPU_WIDE`). The other task is
/// known in records of a whole processor.
#[derive(Debug, Clone, Copy, PartialEq, Eq, Hash)]
pub enum ContextSwitchRecord {
    /// The task was switched in.
    In {
        /// The process of the task before.
        prev_pid: Option<i32>,
        /// The thread of the task before.
        prev_tid: Option<i32>,
    },
    /// The task was switched out.
    Out {
        /// The process of the task after.
        next_pid: Option<i32>,
        /// The thread of the task after.
        next_tid: Option<i32>,
        /// Whether the task could have run further.
        preempted: TaskWasPreempted,
    },
}

impl ContextSwitchRecord {
    /// Returns the switch of a record without fields (`PERF_RECORD_SWITCH`).
    pub fn from_misc(misc: u16) -> Self {
        Self::from_misc_pid_tid(misc, None, None)
    }

    /// Parses the body of a record of a whole processor (`PERF_RECORD_SWITCH_CPU_WIDE`), with numbers in the
    /// byte order `T`. `misc` is that of the record header.
    ///
    /// It fails with `UnexpectedEof` if the fields are truncated.
    pub fn parse_cpu_wide<T: ByteOrder>(data: RawData<'_>, misc: u16) -> Result<Self, io::Error> {
        let endian = convert::inner_endian_of::<T>();
        parse_fields(data, |fields| {
            inner::ContextSwitchRecord::parse_cpu_wide(endian, misc, fields)
        })
        .map(Self::from)
    }

    /// Returns the switch with the bits of `misc`, from or to this process and thread.
    pub fn from_misc_pid_tid(misc: u16, pid: Option<i32>, tid: Option<i32>) -> Self {
        let switch = inner::ContextSwitchRecord::parse(misc, &mut inner::RawData::Single(&[]));
        let (is_out, preempted) = match switch {
            Ok(switch) => (switch.is_out, switch.preempted),
            Err(_) => (false, false),
        };
        Self::new(is_out, preempted, pid, tid)
    }

    fn new(is_out: bool, preempted: bool, pid: Option<i32>, tid: Option<i32>) -> Self {
        if !is_out {
            return Self::In {
                prev_pid: pid,
                prev_tid: tid,
            };
        }
        Self::Out {
            next_pid: pid,
            next_tid: tid,
            preempted: if preempted {
                TaskWasPreempted::Yes
            } else {
                TaskWasPreempted::No
            },
        }
    }
}

impl From<inner::ContextSwitchRecord> for ContextSwitchRecord {
    fn from(record: inner::ContextSwitchRecord) -> Self {
        Self::new(
            record.is_out,
            record.preempted,
            record.other_task.map(|task| task.pid),
            record.other_task.map(|task| task.tid),
        )
    }
}

/// Whether a task that was switched out could have run further.
#[derive(Debug, Clone, Copy, PartialEq, Eq, Hash)]
pub enum TaskWasPreempted {
    /// It could.
    Yes,
    /// It waited for something.
    No,
}

// Names a parsed record that isn't a sample. A record of a type without a name here stays raw.
#[inline]
pub(crate) fn named<'a>(
    record: inner::EventRecord<'a>,
    raw: &RawEventRecord<'a>,
) -> EventRecord<'a> {
    let misc = raw.misc;
    match record {
        inner::EventRecord::Mmap(mmap) => EventRecord::Mmap(MmapRecord::new(mmap, misc)),
        inner::EventRecord::Mmap2(mmap) => EventRecord::Mmap2(Mmap2Record::new(mmap, misc)),
        inner::EventRecord::Comm(comm) => EventRecord::Comm(comm.into()),
        inner::EventRecord::Fork(fork) => EventRecord::Fork(fork.into()),
        inner::EventRecord::Exit(exit) => EventRecord::Exit(exit.into()),
        inner::EventRecord::Lost(lost) => EventRecord::Lost(lost.into()),
        inner::EventRecord::Throttle(throttle) => EventRecord::Throttle(throttle.into()),
        inner::EventRecord::Unthrottle(throttle) => EventRecord::Unthrottle(throttle.into()),
        inner::EventRecord::ContextSwitch(switch) => EventRecord::ContextSwitch(switch.into()),
        _ => EventRecord::Raw(raw.clone()),
    }
}
