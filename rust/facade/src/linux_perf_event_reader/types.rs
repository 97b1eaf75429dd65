//! Bits of attributes, clocks, record types and CPU modes.

use crate::linux_perf_event_reader::constants::*;
use bitflags::bitflags;
use std::fmt;

bitflags! {
    /// The fields of a sample (`perf_event_sample_format` of Linux's `perf_event.h`).
    pub struct SampleFormat: u64 {
        /// The address of the instruction.
        const IP = PERF_SAMPLE_IP;
        /// The process and the thread.
        const TID = PERF_SAMPLE_TID;
        /// The time.
        const TIME = PERF_SAMPLE_TIME;
        /// The address in memory.
        const ADDR = PERF_SAMPLE_ADDR;
        /// The values of the event's counters.
        const READ = PERF_SAMPLE_READ;
        /// The call chain.
        const CALLCHAIN = PERF_SAMPLE_CALLCHAIN;
        /// The identifier of the event.
        const ID = PERF_SAMPLE_ID;
        /// The processor.
        const CPU = PERF_SAMPLE_CPU;
        /// The number of events since the previous sample.
        const PERIOD = PERF_SAMPLE_PERIOD;
        /// The identifier of the event itself, also if another task inherited it.
        const STREAM_ID = PERF_SAMPLE_STREAM_ID;
        /// Raw data, as of a tracepoint.
        const RAW = PERF_SAMPLE_RAW;
        /// The last branches.
        const BRANCH_STACK = PERF_SAMPLE_BRANCH_STACK;
        /// The registers of the program.
        const REGS_USER = PERF_SAMPLE_REGS_USER;
        /// A copy of the start of the program's stack.
        const STACK_USER = PERF_SAMPLE_STACK_USER;
        /// The weight.
        const WEIGHT = PERF_SAMPLE_WEIGHT;
        /// Where the data came from.
        const DATA_SRC = PERF_SAMPLE_DATA_SRC;
        /// The identifier of the event, at an offset that doesn't depend on the other fields.
        const IDENTIFIER = PERF_SAMPLE_IDENTIFIER;
        /// Why a transaction was aborted.
        const TRANSACTION = PERF_SAMPLE_TRANSACTION;
        /// The registers at the interrupt.
        const REGS_INTR = PERF_SAMPLE_REGS_INTR;
        /// The physical address of the data.
        const PHYS_ADDR = PERF_SAMPLE_PHYS_ADDR;
        /// Aux data.
        const AUX = PERF_SAMPLE_AUX;
        /// The id of the control group.
        const CGROUP = PERF_SAMPLE_CGROUP;
        /// The size of the page of the data.
        const DATA_PAGE_SIZE = PERF_SAMPLE_DATA_PAGE_SIZE;
        /// The size of the page of the instruction.
        const CODE_PAGE_SIZE = PERF_SAMPLE_CODE_PAGE_SIZE;
        /// The weight in three parts, in place of `WEIGHT`.
        const WEIGHT_STRUCT = PERF_SAMPLE_WEIGHT_STRUCT;
    }

    /// The branches and the fields of a branch stack (`perf_branch_sample_type`).
    pub struct BranchSampleFormat: u64 {
        /// Branches to user space.
        const USER = PERF_SAMPLE_BRANCH_USER;
        /// Branches to the kernel.
        const KERNEL = PERF_SAMPLE_BRANCH_KERNEL;
        /// Branches to the hypervisor.
        const HV = PERF_SAMPLE_BRANCH_HV;
        /// Branches of any kind.
        const ANY = PERF_SAMPLE_BRANCH_ANY;
        /// Calls of any kind.
        const ANY_CALL = PERF_SAMPLE_BRANCH_ANY_CALL;
        /// Returns of any kind.
        const ANY_RETURN = PERF_SAMPLE_BRANCH_ANY_RETURN;
        /// Indirect calls.
        const IND_CALL = PERF_SAMPLE_BRANCH_IND_CALL;
        /// Aborts of transactions.
        const ABORT_TX = PERF_SAMPLE_BRANCH_ABORT_TX;
        /// Branches in a transaction.
        const IN_TX = PERF_SAMPLE_BRANCH_IN_TX;
        /// Branches outside of transactions.
        const NO_TX = PERF_SAMPLE_BRANCH_NO_TX;
        /// Conditional branches.
        const COND = PERF_SAMPLE_BRANCH_COND;
        /// Calls that have not returned.
        const CALL_STACK = PERF_SAMPLE_BRANCH_CALL_STACK;
        /// Indirect jumps.
        const IND_JUMP = PERF_SAMPLE_BRANCH_IND_JUMP;
        /// Direct calls.
        const CALL = PERF_SAMPLE_BRANCH_CALL;
        /// Entries without flags.
        const NO_FLAGS = PERF_SAMPLE_BRANCH_NO_FLAGS;
        /// Entries without numbers of cycles.
        const NO_CYCLES = PERF_SAMPLE_BRANCH_NO_CYCLES;
        /// Entries with the type of their branch.
        const TYPE_SAVE = PERF_SAMPLE_BRANCH_TYPE_SAVE;
        /// The hardware index of the first entry.
        const HW_INDEX = PERF_SAMPLE_BRANCH_HW_INDEX;
    }

    /// The flags of an event's attribute.
    pub struct AttrFlags: u64 {
        /// The event starts disabled.
        const DISABLED = ATTR_FLAG_BIT_DISABLED;
        /// New tasks of the task inherit the event.
        const INHERIT = ATTR_FLAG_BIT_INHERIT;
        /// The event is always on the processor's counters.
        const PINNED = ATTR_FLAG_BIT_PINNED;
        /// The event's group is alone on the counters.
        const EXCLUSIVE = ATTR_FLAG_BIT_EXCLUSIVE;
        /// Programs aren't counted.
        const EXCLUDE_USER = ATTR_FLAG_BIT_EXCLUDE_USER;
        /// The kernel isn't counted.
        const EXCLUDE_KERNEL = ATTR_FLAG_BIT_EXCLUDE_KERNEL;
        /// The hypervisor isn't counted.
        const EXCLUDE_HV = ATTR_FLAG_BIT_EXCLUDE_HV;
        /// The idle task isn't counted.
        const EXCLUDE_IDLE = ATTR_FLAG_BIT_EXCLUDE_IDLE;
        /// Mappings of executable memory are recorded.
        const MMAP = ATTR_FLAG_BIT_MMAP;
        /// Names of tasks are recorded.
        const COMM = ATTR_FLAG_BIT_COMM;
        /// The number of samples per second is given, and not the period.
        const FREQ = ATTR_FLAG_BIT_FREQ;
        /// Each task has its own counts.
        const INHERIT_STAT = ATTR_FLAG_BIT_INHERIT_STAT;
        /// The next execution of a program enables the event.
        const ENABLE_ON_EXEC = ATTR_FLAG_BIT_ENABLE_ON_EXEC;
        /// Starts and ends of tasks are recorded.
        const TASK = ATTR_FLAG_BIT_TASK;
        /// The recorder is woken after a number of bytes, and not of samples.
        const WATERMARK = ATTR_FLAG_BIT_WATERMARK;
        /// The low bit of the precision of instruction addresses.
        const PRECISE_IP_BIT_15 = 1 << 15;
        /// The high bit of the precision of instruction addresses.
        const PRECISE_IP_BIT_16 = 1 << 16;
        /// Both bits of the precision of instruction addresses.
        const PRECISE_IP_BITMASK = ATTR_FLAG_BITMASK_PRECISE_IP;
        /// Mappings of other memory are recorded.
        const MMAP_DATA = ATTR_FLAG_BIT_MMAP_DATA;
        /// Records that aren't samples end with sample_id fields.
        const SAMPLE_ID_ALL = ATTR_FLAG_BIT_SAMPLE_ID_ALL;
        /// The host isn't counted.
        const EXCLUDE_HOST = ATTR_FLAG_BIT_EXCLUDE_HOST;
        /// Guests aren't counted.
        const EXCLUDE_GUEST = ATTR_FLAG_BIT_EXCLUDE_GUEST;
        /// Call chains don't contain the kernel's frames.
        const EXCLUDE_CALLCHAIN_KERNEL = ATTR_FLAG_BIT_EXCLUDE_CALLCHAIN_KERNEL;
        /// Call chains don't contain the program's frames.
        const EXCLUDE_CALLCHAIN_USER = ATTR_FLAG_BIT_EXCLUDE_CALLCHAIN_USER;
        /// Mappings are recorded with their file's inode.
        const MMAP2 = ATTR_FLAG_BIT_MMAP2;
        /// A task's name tells whether the task executed another program.
        const COMM_EXEC = ATTR_FLAG_BIT_COMM_EXEC;
        /// The clock of the times is given.
        const USE_CLOCKID = ATTR_FLAG_BIT_USE_CLOCKID;
        /// Context switches are recorded.
        const CONTEXT_SWITCH = ATTR_FLAG_BIT_CONTEXT_SWITCH;
        /// The kernel writes its buffer from the end to the start.
        const WRITE_BACKWARD = ATTR_FLAG_BIT_WRITE_BACKWARD;
        /// Namespaces of tasks are recorded.
        const NAMESPACES = ATTR_FLAG_BIT_NAMESPACES;
        /// Symbols that the kernel registers are recorded.
        const KSYMBOL = ATTR_FLAG_BIT_KSYMBOL;
        /// Events of BPF programs are recorded.
        const BPF_EVENT = ATTR_FLAG_BIT_BPF_EVENT;
        /// The event writes into the AUX area.
        const AUX_OUTPUT = ATTR_FLAG_BIT_AUX_OUTPUT;
        /// Control groups are recorded.
        const CGROUP = ATTR_FLAG_BIT_CGROUP;
        /// Changes of the kernel's code are recorded.
        const TEXT_POKE = ATTR_FLAG_BIT_TEXT_POKE;
        /// Mappings are recorded with their file's build id.
        const BUILD_ID = ATTR_FLAG_BIT_BUILD_ID;
        /// Only new threads inherit the event, and no new processes.
        const INHERIT_THREAD = ATTR_FLAG_BIT_INHERIT_THREAD;
        /// An execution of a program removes the event.
        const REMOVE_ON_EXEC = ATTR_FLAG_BIT_REMOVE_ON_EXEC;
        /// The event sends the signal SIGTRAP.
        const SIGTRAP = ATTR_FLAG_BIT_SIGTRAP;
    }

    /// The accesses that a breakpoint counts.
    pub struct HwBreakpointType: u32 {
        /// None.
        const EMPTY = 0;
        /// Reads.
        const R = 1;
        /// Writes.
        const W = 2;
        /// Reads and writes.
        const RW = 3;
        /// Executions.
        const X = 4;
        /// Reads, writes and executions, which the kernel doesn't accept together.
        const INVALID = 7;
    }

    /// The fields of counter values (`perf_event_read_format`).
    pub struct ReadFormat: u64 {
        /// The time that the event was enabled.
        const TOTAL_TIME_ENABLED = PERF_FORMAT_TOTAL_TIME_ENABLED;
        /// The time that the event was counted.
        const TOTAL_TIME_RUNNING = PERF_FORMAT_TOTAL_TIME_RUNNING;
        /// The identifier of the event.
        const ID = PERF_FORMAT_ID;
        /// The counters of the whole group.
        const GROUP = PERF_FORMAT_GROUP;
    }
}

/// How far the address of a sample may be from the instruction that caused the event.
#[derive(Debug, Clone, Copy, PartialEq, Eq, PartialOrd, Ord, Hash)]
pub enum IpSkidConstraint {
    /// Any distance.
    ArbitrarySkid,
    /// The same distance in each sample.
    ConstantSkid,
    /// No distance, if the processor can.
    ZeroSkid,
    /// No distance, or a random one that hides no instruction.
    ZeroSkidOrRandomization,
}

impl AttrFlags {
    /// Returns the precision of instruction addresses.
    pub fn ip_skid_constraint(&self) -> IpSkidConstraint {
        let low = self.contains(Self::PRECISE_IP_BIT_15);
        let high = self.contains(Self::PRECISE_IP_BIT_16);
        match (high, low) {
            (false, false) => IpSkidConstraint::ArbitrarySkid,
            (false, true) => IpSkidConstraint::ConstantSkid,
            (true, false) => IpSkidConstraint::ZeroSkid,
            (true, true) => IpSkidConstraint::ZeroSkidOrRandomization,
        }
    }
}

/// A clock of Linux (`CLOCK_*` of `time.h`).
#[derive(Debug, Clone, Copy, PartialEq, Eq, PartialOrd, Ord, Hash)]
#[non_exhaustive]
pub enum ClockId {
    /// The time of day.
    Realtime,
    /// The time since some start, which is never set.
    Monotonic,
    /// The processor time of the process.
    ProcessCputimeId,
    /// The processor time of the thread.
    ThreadCputimeId,
    /// The monotonic time without adjustments of its rate.
    MonotonicRaw,
    /// The time of day at the last tick.
    RealtimeCoarse,
    /// The monotonic time at the last tick.
    MonotonicCoarse,
    /// The monotonic time, with the time in suspension.
    Boottime,
    /// The time of day, which wakes a suspended machine.
    RealtimeAlarm,
    /// The time since boot, which wakes a suspended machine.
    BoottimeAlarm,
}

// The clocks by their numbers.
const CLOCKS: [ClockId; 10] = [
    ClockId::Realtime,
    ClockId::Monotonic,
    ClockId::ProcessCputimeId,
    ClockId::ThreadCputimeId,
    ClockId::MonotonicRaw,
    ClockId::RealtimeCoarse,
    ClockId::MonotonicCoarse,
    ClockId::Boottime,
    ClockId::RealtimeAlarm,
    ClockId::BoottimeAlarm,
];

impl ClockId {
    /// Returns the clock with this number, or `None` if there is none.
    pub fn from_u32(clockid: u32) -> Option<Self> {
        CLOCKS.get(clockid as usize).copied()
    }
}

/// The type of a record.
#[derive(Clone, Copy, PartialEq, Eq, PartialOrd, Ord, Hash)]
pub struct RecordType(pub u32);

// Defines the constants of the kernel's types, and the function that returns their names.
macro_rules! record_types {
    ($($(#[$doc:meta])* $name:ident = $number:expr;)+) => {
        impl RecordType {
            $($(#[$doc])* pub const $name: Self = Self($number);)+

            // The name of the constant of a type.
            fn name(self) -> Option<&'static str> {
                match self {
                    $(Self::$name => Some(stringify!($name)),)+
                    _ => None,
                }
            }
        }
    };
}

record_types! {
    /// A mapping.
    MMAP = PERF_RECORD_MMAP;
    /// Records that were lost because the buffer was full.
    LOST = PERF_RECORD_LOST;
    /// The name of a task.
    COMM = PERF_RECORD_COMM;
    /// The end of a task.
    EXIT = PERF_RECORD_EXIT;
    /// The kernel limits the samples of an event.
    THROTTLE = PERF_RECORD_THROTTLE;
    /// The kernel no longer limits the samples of an event.
    UNTHROTTLE = PERF_RECORD_UNTHROTTLE;
    /// A new task.
    FORK = PERF_RECORD_FORK;
    /// The values of counters when a task ended.
    READ = PERF_RECORD_READ;
    /// A sample.
    SAMPLE = PERF_RECORD_SAMPLE;
    /// A mapping with the identity of its file.
    MMAP2 = PERF_RECORD_MMAP2;
    /// New data in the AUX area.
    AUX = PERF_RECORD_AUX;
    /// The start of an instruction trace.
    ITRACE_START = PERF_RECORD_ITRACE_START;
    /// Samples that were lost.
    LOST_SAMPLES = PERF_RECORD_LOST_SAMPLES;
    /// A switch of the recorded task.
    SWITCH = PERF_RECORD_SWITCH;
    /// A switch on a recorded processor, with the other task.
    SWITCH_CPU_WIDE = PERF_RECORD_SWITCH_CPU_WIDE;
    /// The namespaces of a task.
    NAMESPACES = PERF_RECORD_NAMESPACES;
    /// A symbol that the kernel registers or removes.
    KSYMBOL = PERF_RECORD_KSYMBOL;
    /// An event of a BPF program.
    BPF_EVENT = PERF_RECORD_BPF_EVENT;
    /// A control group with its path.
    CGROUP = PERF_RECORD_CGROUP;
    /// Changed code of the kernel.
    TEXT_POKE = PERF_RECORD_TEXT_POKE;
    /// The hardware's identifier of an event in the AUX area.
    AUX_OUTPUT_HW_ID = PERF_RECORD_AUX_OUTPUT_HW_ID;
}

impl RecordType {
    /// Returns whether the kernel writes records of this type: those below 64.
    pub fn is_builtin_type(&self) -> bool {
        self.0 < PERF_RECORD_USER_TYPE_START
    }

    /// Returns whether tools write records of this type: those of 64 and more.
    pub fn is_user_type(&self) -> bool {
        self.0 >= PERF_RECORD_USER_TYPE_START
    }
}

/// Writes the name of the type's constant, or the number of a type without one.
impl fmt::Debug for RecordType {
    fn fmt(&self, f: &mut fmt::Formatter<'_>) -> fmt::Result {
        match self.name() {
            Some(name) => f.write_str(name),
            None if self.is_builtin_type() => write!(f, "Unknown built-in: {}", self.0),
            None => write!(f, "User type: {}", self.0),
        }
    }
}

/// The mode of the processor when a record was written.
#[derive(Debug, Clone, Copy, PartialEq, Eq, Hash)]
#[non_exhaustive]
pub enum CpuMode {
    /// The mode isn't reported.
    Unknown,
    /// The kernel.
    Kernel,
    /// A program.
    User,
    /// A hypervisor.
    Hypervisor,
    /// The kernel of a guest.
    GuestKernel,
    /// A program of a guest.
    GuestUser,
}

impl CpuMode {
    /// Returns the mode in the lowest three bits of a record header's `misc`.
    pub fn from_misc(misc: u16) -> Self {
        match misc & PERF_RECORD_MISC_CPUMODE_MASK {
            PERF_RECORD_MISC_KERNEL => Self::Kernel,
            PERF_RECORD_MISC_USER => Self::User,
            PERF_RECORD_MISC_HYPERVISOR => Self::Hypervisor,
            PERF_RECORD_MISC_GUEST_KERNEL => Self::GuestKernel,
            PERF_RECORD_MISC_GUEST_USER => Self::GuestUser,
            _ => Self::Unknown,
        }
    }
}
