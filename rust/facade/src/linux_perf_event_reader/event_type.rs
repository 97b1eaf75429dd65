//! What an event counts.

use crate::linux_perf_event_reader::HwBreakpointType;
use crate::linux_perf_event_reader::constants::*;

/// What an event counts, by the type and the configuration of its attribute.
#[derive(Debug, Clone, Copy)]
pub enum PerfEventType {
    /// A hardware event (`PERF_TYPE_HARDWARE`), and the unit that counts it.
    Hardware(HardwareEventId, PmuTypeId),
    /// A software event (`PERF_TYPE_SOFTWARE`).
    Software(SoftwareCounterType),
    /// A tracepoint with this number (`PERF_TYPE_TRACEPOINT`).
    Tracepoint(u64),
    /// An event on a cache (`PERF_TYPE_HW_CACHE`): the cache, the access, its result, and the unit that
    /// counts it.
    HwCache(
        HardwareCacheId,
        HardwareCacheOp,
        HardwareCacheOpResult,
        PmuTypeId,
    ),
    /// A breakpoint (`PERF_TYPE_BREAKPOINT`): its accesses, its address and its length.
    Breakpoint(HwBreakpointType, HwBreakpointAddr, HwBreakpointLen),
    /// An event of a monitoring unit: the number of the unit, and `config`, `config1` and `config2`. The
    /// units `kprobe` and `uprobe` are among these, and raw events (`PERF_TYPE_RAW`).
    DynamicPmu(u32, u64, u64, u64),
}

/// The number of the monitoring unit that counts an event, or 0 for all. On processors with cores of several
/// types it is in `/sys/devices/cpu_core/type` and `/sys/devices/cpu_atom/type`.
#[derive(Debug, Clone, Copy)]
pub struct PmuTypeId(pub u32);

/// The address of a breakpoint.
#[derive(Debug, Clone, Copy)]
pub struct HwBreakpointAddr(pub u64);

/// The length of a breakpoint in bytes.
#[derive(Debug, Clone, Copy)]
pub struct HwBreakpointLen(pub u64);

impl PerfEventType {
    /// Returns what an event counts, by the fields of its attribute (`perf_event_attr`).
    ///
    /// It is `None` for a hardware event, a software event or an event on a cache that isn't known.
    pub fn parse(
        type_: u32,
        bp_type: u32,
        config: u64,
        config1: u64,
        config2: u64,
    ) -> Option<Self> {
        let [low, op, result, ..] = config.to_le_bytes();
        let unit = PmuTypeId((config >> 32) as u32);
        Some(match type_ {
            PERF_TYPE_HARDWARE => Self::Hardware(HardwareEventId::parse(low)?, unit),
            PERF_TYPE_SOFTWARE => Self::Software(SoftwareCounterType::parse(config)?),
            PERF_TYPE_TRACEPOINT => Self::Tracepoint(config),
            PERF_TYPE_HW_CACHE => Self::HwCache(
                HardwareCacheId::parse(low)?,
                HardwareCacheOp::parse(op)?,
                HardwareCacheOpResult::parse(result)?,
                unit,
            ),
            PERF_TYPE_BREAKPOINT => Self::Breakpoint(
                HwBreakpointType::from_bits_truncate(bp_type),
                HwBreakpointAddr(config1),
                HwBreakpointLen(config2),
            ),
            _ => Self::DynamicPmu(type_, config, config1, config2),
        })
    }
}

// Defines an enum of numbered values with a function that returns the value of a number.
macro_rules! numbered {
    (
        $(#[$meta:meta])*
        $type:ident($number:ty, $argument:ident);
        $(#[doc = $doc:literal] $name:ident = $constant:ident;)+
    ) => {
        $(#[$meta])*
        #[derive(Debug, Clone, Copy)]
        pub enum $type {
            $(#[doc = $doc] #[doc = concat!("(`", stringify!($constant), "`).")] $name,)+
        }

        impl $type {
            /// Returns the value with this number, or `None` if there is none.
            pub fn parse($argument: $number) -> Option<Self> {
                match $argument {
                    $($constant => Some(Self::$name),)+
                    _ => None,
                }
            }
        }
    };
}

numbered! {
    /// A hardware event.
    #[non_exhaustive]
    HardwareEventId(u8, hardware_event_id);
    /// Cycles of the processor
    CpuCycles = PERF_COUNT_HW_CPU_CYCLES;
    /// Instructions
    Instructions = PERF_COUNT_HW_INSTRUCTIONS;
    /// Accesses of the last cache
    CacheReferences = PERF_COUNT_HW_CACHE_REFERENCES;
    /// Misses of the last cache
    CacheMisses = PERF_COUNT_HW_CACHE_MISSES;
    /// Branches
    BranchInstructions = PERF_COUNT_HW_BRANCH_INSTRUCTIONS;
    /// Mispredicted branches
    BranchMisses = PERF_COUNT_HW_BRANCH_MISSES;
    /// Cycles of the bus
    BusCycles = PERF_COUNT_HW_BUS_CYCLES;
    /// Cycles in which no instruction was issued
    StalledCyclesFrontend = PERF_COUNT_HW_STALLED_CYCLES_FRONTEND;
    /// Cycles in which no instruction was retired
    StalledCyclesBackend = PERF_COUNT_HW_STALLED_CYCLES_BACKEND;
    /// Cycles at a constant frequency
    RefCpuCycles = PERF_COUNT_HW_REF_CPU_CYCLES;
}

numbered! {
    /// A software event.
    #[non_exhaustive]
    SoftwareCounterType(u64, config);
    /// The time of a processor
    CpuClock = PERF_COUNT_SW_CPU_CLOCK;
    /// The time of a task
    TaskClock = PERF_COUNT_SW_TASK_CLOCK;
    /// Page faults
    PageFaults = PERF_COUNT_SW_PAGE_FAULTS;
    /// Context switches
    ContextSwitches = PERF_COUNT_SW_CONTEXT_SWITCHES;
    /// Moves of a task to another processor
    CpuMigrations = PERF_COUNT_SW_CPU_MIGRATIONS;
    /// Page faults without input or output
    PageFaultsMin = PERF_COUNT_SW_PAGE_FAULTS_MIN;
    /// Page faults with input or output
    PageFaultsMaj = PERF_COUNT_SW_PAGE_FAULTS_MAJ;
    /// Accesses of unaligned addresses that the kernel completed
    AlignmentFaults = PERF_COUNT_SW_ALIGNMENT_FAULTS;
    /// Instructions that the kernel emulated
    EmulationFaults = PERF_COUNT_SW_EMULATION_FAULTS;
    /// Nothing: an event for the records that aren't samples
    Dummy = PERF_COUNT_SW_DUMMY;
    /// The output of a BPF program
    BpfOutput = PERF_COUNT_SW_BPF_OUTPUT;
    /// Switches to another control group
    CgroupSwitches = PERF_COUNT_SW_CGROUP_SWITCHES;
}

numbered! {
    /// A cache.
    #[non_exhaustive]
    HardwareCacheId(u8, cache_id);
    /// The first level for data
    L1d = PERF_COUNT_HW_CACHE_L1D;
    /// The first level for instructions
    L1i = PERF_COUNT_HW_CACHE_L1I;
    /// The last level
    Ll = PERF_COUNT_HW_CACHE_LL;
    /// The translations of addresses of data
    Dtlb = PERF_COUNT_HW_CACHE_DTLB;
    /// The translations of addresses of instructions
    Itlb = PERF_COUNT_HW_CACHE_ITLB;
    /// The branch predictor
    Bpu = PERF_COUNT_HW_CACHE_BPU;
    /// The memory of the processor's node
    Node = PERF_COUNT_HW_CACHE_NODE;
}

numbered! {
    /// An access of a cache.
    HardwareCacheOp(u8, cache_op);
    /// A read
    Read = PERF_COUNT_HW_CACHE_OP_READ;
    /// A write
    Write = PERF_COUNT_HW_CACHE_OP_WRITE;
    /// A prefetch
    Prefetch = PERF_COUNT_HW_CACHE_OP_PREFETCH;
}

numbered! {
    /// The result of an access of a cache.
    HardwareCacheOpResult(u8, cache_op_result);
    /// Any access
    Access = PERF_COUNT_HW_CACHE_RESULT_ACCESS;
    /// A miss
    Miss = PERF_COUNT_HW_CACHE_RESULT_MISS;
}
