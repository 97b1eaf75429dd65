"""Constants of dewikura.h, without their prefix. Written by scripts/generate_constants."""

import enum


class Status(enum.IntEnum):
    """The status of a call."""

    OK = 0
    OUT_OF_MEMORY = 1
    TRUNCATED = 2
    INVALID_DATA = 3
    INVALID_HEADER_SIZE = 4
    COMPRESSED = 5
    OTHER = 6
    BAD_MAGIC = 7
    NO_ATTRIBUTES = 8
    BAD_DATA_SECTION = 9
    BAD_ATTRIBUTE = 10
    ATTRIBUTE_TOO_LARGE = 11
    MISSING_IDENTIFIER = 12
    SAMPLE_ID_ALL_MISMATCH = 13
    NO_EVENT_TYPES = 14
    INVALID_UTF8 = 15
    BAD_RECORD_SIZE = 16
    TRUNCATED_RECORD = 17
    JIT_TRUNCATED_HEADER = 18
    JIT_BAD_HEADER_SIZE = 19
    JIT_BAD_MAGIC = 20
    JIT_BAD_RECORD_SIZE = 21
    JIT_WRONG_TYPE = 22
    JIT_BAD_BODY = 23
    BAD_SYMBOL_TABLE = 24
    NO_SPACE = 25
    NOT_ELF = 26
    BAD_ELF = 27
    TRACING_DATA = 28
    MORE = 29


class InputKind(enum.IntEnum):
    """The kind of an input by its first bytes."""

    NONE = 0
    FILE = 1
    PIPE = 2
    JITDUMP = 3


class Style(enum.IntEnum):
    """What the text of a mangled name contains."""

    NAME = 0
    SIGNATURE = 1


class RecordType(enum.IntEnum):
    """The type of a record."""

    MMAP = 1
    LOST = 2
    COMM = 3
    EXIT = 4
    THROTTLE = 5
    UNTHROTTLE = 6
    FORK = 7
    READ = 8
    SAMPLE = 9
    MMAP2 = 10
    AUX = 11
    ITRACE_START = 12
    LOST_SAMPLES = 13
    SWITCH = 14
    SWITCH_CPU_WIDE = 15
    NAMESPACES = 16
    KSYMBOL = 17
    BPF_EVENT = 18
    CGROUP = 19
    TEXT_POKE = 20
    AUX_OUTPUT_HW_ID = 21
    HEADER_ATTR = 64
    HEADER_EVENT_TYPE = 65
    HEADER_TRACING_DATA = 66
    HEADER_BUILD_ID = 67
    FINISHED_ROUND = 68
    ID_INDEX = 69
    AUXTRACE_INFO = 70
    AUXTRACE = 71
    AUXTRACE_ERROR = 72
    THREAD_MAP = 73
    CPU_MAP = 74
    STAT_CONFIG = 75
    STAT = 76
    STAT_ROUND = 77
    EVENT_UPDATE = 78
    TIME_CONV = 79
    HEADER_FEATURE = 80
    COMPRESSED = 81
    FINISHED_INIT = 82
    COMPRESSED2 = 83
    SIMPLEPERF_KERNEL_SYMBOL = 32769
    SIMPLEPERF_DSO = 32770
    SIMPLEPERF_SYMBOL = 32771
    SIMPLEPERF_SPLIT = 32772
    SIMPLEPERF_SPLIT_END = 32773
    SIMPLEPERF_EVENT_ID = 32774
    SIMPLEPERF_CALLCHAIN = 32775
    SIMPLEPERF_UNWINDING_RESULT = 32776
    SIMPLEPERF_TRACING_DATA = 32777


class Feature(enum.IntEnum):
    """The number of a feature."""

    TRACING_DATA = 1
    BUILD_ID = 2
    HOSTNAME = 3
    OSRELEASE = 4
    VERSION = 5
    ARCH = 6
    NRCPUS = 7
    CPUDESC = 8
    CPUID = 9
    TOTAL_MEM = 10
    CMDLINE = 11
    EVENT_DESC = 12
    CPU_TOPOLOGY = 13
    NUMA_TOPOLOGY = 14
    BRANCH_STACK = 15
    PMU_MAPPINGS = 16
    GROUP_DESC = 17
    AUXTRACE = 18
    STAT = 19
    CACHE = 20
    SAMPLE_TIME = 21
    SAMPLE_TOPOLOGY = 22
    CLOCKID = 23
    DIR_FORMAT = 24
    BPF_PROG_INFO = 25
    BPF_BTF = 26
    COMPRESSED = 27
    CPU_PMU_CAPS = 28
    CLOCK_DATA = 29
    HYBRID_TOPOLOGY = 30
    HYBRID_CPU_PMU_CAPS = 31
    SIMPLEPERF_FILE = 128
    SIMPLEPERF_META_INFO = 129
    SIMPLEPERF_DEBUG_UNWIND = 130
    SIMPLEPERF_DEBUG_UNWIND_FILE = 131
    SIMPLEPERF_FILE2 = 132


class EventType(enum.IntEnum):
    """The type of an event attribute."""

    HARDWARE = 0
    SOFTWARE = 1
    TRACEPOINT = 2
    HW_CACHE = 3
    RAW = 4
    BREAKPOINT = 5


class DsoKind(enum.IntEnum):
    """The DSO kind of a build id's path."""

    NONE = 0
    KERNEL = 1
    GUEST_KERNEL = 2
    VDSO32 = 3
    VDSOX32 = 4
    VDSO64 = 5
    VSYSCALL = 6
    KERNEL_MODULE = 7
    USER = 8


class SymbolFileType(enum.IntEnum):
    """The type of a file in simpleperf's symbol tables."""

    KERNEL = 0
    KERNEL_MODULE = 1
    ELF = 2
    DEX = 3
    SYMBOL_MAP = 4
    UNKNOWN = 5


class CpuMode(enum.IntEnum):
    """The mode of the processor at a record."""

    UNKNOWN = 0
    KERNEL = 1
    USER = 2
    HYPERVISOR = 3
    GUEST_KERNEL = 4
    GUEST_USER = 5


class FrameContext(enum.IntEnum):
    """The context of a frame."""

    UNKNOWN = 0
    KERNEL = 1
    USER = 2
    HYPERVISOR = 3
    GUEST_KERNEL = 4
    GUEST_USER = 5
    GUEST = 6


class MappingKind(enum.IntEnum):
    """What is mapped."""

    CODE = 0
    DATA = 1
    KERNEL_SYMBOL = 2


class BodyError(enum.IntEnum):
    """Whether the fields of a sample up to its call chain are decoded."""

    COMPLETE = 0
    TRUNCATED = 1
    UNKNOWN_FIELDS = 2


class JitRecordType(enum.IntEnum):
    """The type of a jitdump record."""

    CODE_LOAD = 0
    CODE_MOVE = 1
    CODE_DEBUG_INFO = 2
    CODE_CLOSE = 3
    CODE_UNWINDING_INFO = 4


class AttrFlag(enum.IntFlag):
    """The flags of an event attribute."""

    DISABLED = 1 << 0
    INHERIT = 1 << 1
    PINNED = 1 << 2
    EXCLUSIVE = 1 << 3
    EXCLUDE_USER = 1 << 4
    EXCLUDE_KERNEL = 1 << 5
    EXCLUDE_HV = 1 << 6
    EXCLUDE_IDLE = 1 << 7
    MMAP = 1 << 8
    COMM = 1 << 9
    FREQ = 1 << 10
    INHERIT_STAT = 1 << 11
    ENABLE_ON_EXEC = 1 << 12
    TASK = 1 << 13
    WATERMARK = 1 << 14
    PRECISE_IP_1 = 1 << 15
    PRECISE_IP_2 = 1 << 16
    MMAP_DATA = 1 << 17
    SAMPLE_ID_ALL = 1 << 18
    EXCLUDE_HOST = 1 << 19
    EXCLUDE_GUEST = 1 << 20
    EXCLUDE_CALLCHAIN_KERNEL = 1 << 21
    EXCLUDE_CALLCHAIN_USER = 1 << 22
    MMAP2 = 1 << 23
    COMM_EXEC = 1 << 24
    USE_CLOCKID = 1 << 25
    CONTEXT_SWITCH = 1 << 26
    WRITE_BACKWARD = 1 << 27
    NAMESPACES = 1 << 28
    KSYMBOL = 1 << 29
    BPF_EVENT = 1 << 30
    AUX_OUTPUT = 1 << 31
    CGROUP = 1 << 32
    TEXT_POKE = 1 << 33
    BUILD_ID = 1 << 34
    INHERIT_THREAD = 1 << 35
    REMOVE_ON_EXEC = 1 << 36
    SIGTRAP = 1 << 37


class SampleType(enum.IntFlag):
    """The fields of a SAMPLE body."""

    IP = 1 << 0
    TID = 1 << 1
    TIME = 1 << 2
    ADDR = 1 << 3
    READ = 1 << 4
    CALLCHAIN = 1 << 5
    ID = 1 << 6
    CPU = 1 << 7
    PERIOD = 1 << 8
    STREAM_ID = 1 << 9
    RAW = 1 << 10
    BRANCH_STACK = 1 << 11
    REGS_USER = 1 << 12
    STACK_USER = 1 << 13
    WEIGHT = 1 << 14
    DATA_SRC = 1 << 15
    IDENTIFIER = 1 << 16
    TRANSACTION = 1 << 17
    REGS_INTR = 1 << 18
    PHYS_ADDR = 1 << 19
    AUX = 1 << 20
    CGROUP = 1 << 21
    DATA_PAGE_SIZE = 1 << 22
    CODE_PAGE_SIZE = 1 << 23
    WEIGHT_STRUCT = 1 << 24


class ReadFormat(enum.IntFlag):
    """The fields of a counter value."""

    TOTAL_TIME_ENABLED = 1 << 0
    TOTAL_TIME_RUNNING = 1 << 1
    ID = 1 << 2
    GROUP = 1 << 3
    LOST = 1 << 4


VERSION = (0, 1, 0)
