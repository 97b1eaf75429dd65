"""The structs and exports of dewikura.h. Written by scripts/generate_declarations."""

import ctypes
from ctypes import POINTER, c_size_t, c_void_p
from ctypes import c_int32 as i32, c_uint8 as u8, c_uint16 as u16, c_uint32 as u32, c_uint64 as u64


class Cursor(ctypes.Structure):
    """Where the records of a file continue. Zeros are the first record. Any numbers are safe."""

    offset: int
    round: int
    _fields_ = [("offset", u64), ("round", u64)]


class Record(ctypes.Structure):
    """A record of a file or pipe."""

    offset: int
    body_offset: int
    body_size: int
    round: int
    misc: int
    has_timestamp: int
    has_attr: int
    _fields_ = [("offset", u64), ("body_offset", u64), ("body_size", u64), ("round", u64), ("_timestamp", u64), ("_attr_index", u64),
        ("_type", u32), ("misc", u16), ("has_timestamp", u8), ("has_attr", u8)]


class Sample(ctypes.Structure):
    """A sample (DEWIKURA_RECORD_SAMPLE), decoded. What it doesn't have is 0: `fields` says what it has."""

    offset: int
    timestamp: int
    ip: int
    address: int
    id: int
    period: int
    frames_start: int
    frames_count: int
    attr_index: int
    cpu: int
    pid: int
    tid: int
    misc: int
    _fields_ = [("offset", u64), ("timestamp", u64), ("ip", u64), ("address", u64), ("id", u64), ("period", u64), ("frames_start", u64),
        ("frames_count", u32), ("attr_index", u32), ("_fields", u32), ("cpu", u32), ("pid", i32), ("tid", i32), ("misc", u16),
        ("_error", u8), ("_reserved", u8 * 5)]


class Frame(ctypes.Structure):
    """A frame of a call chain. Context changes are no frames."""

    address: int
    _fields_ = [("address", u64), ("_context", u32), ("_reserved", u32)]


class SampleDetails(ctypes.Structure):
    """What else a sample has. What it doesn't have is 0. Offsets are in bytes from the start of its body."""

    stream_id: int
    weight: int
    data_source: int
    transaction: int
    physical_address: int
    cgroup: int
    data_page_size: int
    code_page_size: int
    raw_offset: int
    raw_size: int
    branches_offset: int
    branches_count: int
    branches_hw_index: int
    user_abi: int
    user_registers_offset: int
    user_registers_count: int
    user_stack_offset: int
    user_stack_size: int
    user_stack_dynamic_size: int
    interrupt_abi: int
    interrupt_registers_offset: int
    interrupt_registers_count: int
    aux_offset: int
    aux_size: int
    _fields_ = [("stream_id", u64), ("weight", u64), ("data_source", u64), ("transaction", u64), ("physical_address", u64), ("cgroup", u64),
        ("data_page_size", u64), ("code_page_size", u64), ("raw_offset", u64), ("raw_size", u64), ("branches_offset", u64),
        ("branches_count", u64), ("branches_hw_index", u64), ("user_abi", u64), ("user_registers_offset", u64),
        ("user_registers_count", u64), ("user_stack_offset", u64), ("user_stack_size", u64), ("user_stack_dynamic_size", u64),
        ("interrupt_abi", u64), ("interrupt_registers_offset", u64), ("interrupt_registers_count", u64), ("aux_offset", u64),
        ("aux_size", u64)]


class Task(ctypes.Structure):
    """A record on a task, decoded: its name (DEWIKURA_RECORD_COMM), its start (DEWIKURA_RECORD_FORK) or its end (DEWIKURA_RECORD_EXIT)."""

    offset: int
    timestamp: int
    name_offset: int
    name_size: int
    pid: int
    tid: int
    ppid: int
    ptid: int
    _fields_ = [("offset", u64), ("timestamp", u64), ("name_offset", u64), ("name_size", u64), ("_type", u32), ("_is_execve", u32),
        ("pid", i32), ("tid", i32), ("ppid", i32), ("ptid", i32)]


class Mapping(ctypes.Structure):
    """A mapping, decoded (DEWIKURA_RECORD_MMAP or DEWIKURA_RECORD_MMAP2). What it doesn't have is 0."""

    offset: int
    timestamp: int
    address: int
    length: int
    page_offset: int
    inode: int
    inode_generation: int
    path_offset: int
    path_size: int
    major: int
    minor: int
    protection: int
    flags: int
    pid: int
    tid: int
    build_id_size: int
    misc: int
    _fields_ = [("offset", u64), ("timestamp", u64), ("address", u64), ("length", u64), ("page_offset", u64), ("inode", u64),
        ("inode_generation", u64), ("path_offset", u64), ("path_size", u64), ("_type", u32), ("major", u32), ("minor", u32),
        ("protection", u32), ("flags", u32), ("pid", i32), ("tid", i32), ("_build_id", u8 * 20), ("build_id_size", u8), ("_is_data", u8),
        ("misc", u16), ("_reserved", u32)]


class Counter(ctypes.Structure):
    """The value of a counter in a sample or in a READ record, decoded. A record has a value for each counter of its group. What its
    attribute's read_format (DEWIKURA_READ_* bits) doesn't select is 0."""

    value: int
    id: int
    time_enabled: int
    time_running: int
    lost: int
    offset: int
    _fields_ = [("value", u64), ("id", u64), ("time_enabled", u64), ("time_running", u64), ("lost", u64), ("offset", u64)]


class Stack(ctypes.Structure):
    """A sample as a stack: its frames, and the name of its thread. What it doesn't have is 0."""

    offset: int
    timestamp: int
    period: int
    attr_index: int
    frames_start: int
    frames_count: int
    name_offset: int
    name_size: int
    pid: int
    tid: int
    misc: int
    _fields_ = [("offset", u64), ("timestamp", u64), ("period", u64), ("attr_index", u64), ("frames_start", u64), ("frames_count", u64),
        ("name_offset", u64), ("name_size", u64), ("pid", i32), ("tid", i32), ("misc", u16), ("_has_name", u8), ("_reserved", u8 * 5)]


class StackFrame(ctypes.Structure):
    """A frame of a stack. Look it up at `address`, and a caller at `address - 1`: `address` is the recorded one, which the call returns to,
    and the code there may be another function's. `mapping` and `file_offset` are those of the look-up address."""

    address: int
    file_offset: int
    _fields_ = [("address", u64), ("file_offset", u64), ("_mapping", u64), ("_context", u32), ("_is_caller", u32)]


class StackMapping(ctypes.Structure):
    """What is mapped: a file or memory (DEWIKURA_RECORD_MMAP or DEWIKURA_RECORD_MMAP2), or a function that the kernel generated
    (DEWIKURA_RECORD_KSYMBOL). What it doesn't have is 0."""

    start: int
    length: int
    page_offset: int
    path_offset: int
    path_size: int
    pid: int
    protection: int
    flags: int
    build_id_size: int
    _fields_ = [("start", u64), ("length", u64), ("page_offset", u64), ("path_offset", u64), ("path_size", u64), ("pid", i32),
        ("_kind", u32), ("protection", u32), ("flags", u32), ("_build_id", u8 * 20), ("build_id_size", u32)]


class StackTotals(ctypes.Structure):
    """The totals over all stacks of a recording."""

    stack_count: int
    frame_count: int
    mapping_count: int
    text_size: int
    _fields_ = [("stack_count", u64), ("frame_count", u64), ("mapping_count", u64), ("text_size", u64)]


class Attr(ctypes.Structure):
    """An event attribute: perf_event_attr, by the kernel's names."""

    config: int
    sample_period_or_freq: int
    sample_type: int
    read_format: int
    flags: int
    config1: int
    config2: int
    branch_sample_type: int
    sample_regs_user: int
    sample_regs_intr: int
    sig_data: int
    config3: int
    name_offset: int
    name_size: int
    ids_start: int
    ids_count: int
    type: int
    size: int
    wakeup_events: int
    bp_type: int
    sample_stack_user: int
    clockid: int
    aux_watermark: int
    aux_sample_size: int
    sample_max_stack: int
    has_name: int
    _fields_ = [("config", u64), ("sample_period_or_freq", u64), ("sample_type", u64), ("read_format", u64), ("flags", u64),
        ("config1", u64), ("config2", u64), ("branch_sample_type", u64), ("sample_regs_user", u64), ("sample_regs_intr", u64),
        ("sig_data", u64), ("config3", u64), ("name_offset", u64), ("name_size", u64), ("ids_start", u64), ("ids_count", u64),
        ("type", u32), ("size", u32), ("wakeup_events", u32), ("bp_type", u32), ("sample_stack_user", u32), ("clockid", i32),
        ("aux_watermark", u32), ("aux_sample_size", u32), ("sample_max_stack", u32), ("has_name", u32)]


class AttrTotals(ctypes.Structure):
    """The totals over all attributes."""

    attr_count: int
    names_size: int
    ids_count: int
    _fields_ = [("attr_count", u64), ("names_size", u64), ("ids_count", u64)]


class FeatureSet(ctypes.Structure):
    """A set of features: feature n is bit n % 64 of the number n / 64."""

    bits0: int
    bits1: int
    bits2: int
    bits3: int
    _fields_ = [("bits0", u64), ("bits1", u64), ("bits2", u64), ("bits3", u64)]


class BuildId(ctypes.Structure):
    """An entry of the BUILD_ID section. Offsets are in bytes from the start of the section."""

    id_offset: int
    id_size: int
    path_offset: int
    path_size: int
    next_offset: int
    pid: int
    dso_kind: int
    misc: int
    _fields_ = [("id_offset", u64), ("id_size", u64), ("path_offset", u64), ("path_size", u64), ("next_offset", u64), ("pid", i32),
        ("dso_kind", u32), ("misc", u16), ("_reserved", u8 * 6)]


class StringEntry(ctypes.Structure):
    """A string of a feature section. Offsets are in bytes from the start of the section."""

    text_offset: int
    text_size: int
    next_offset: int
    _fields_ = [("text_offset", u64), ("text_size", u64), ("next_offset", u64)]


class MetaPair(ctypes.Structure):
    """A key and its value in the section SIMPLEPERF_META_INFO. Offsets are in bytes from the start of the section."""

    key_offset: int
    key_size: int
    value_offset: int
    value_size: int
    _fields_ = [("key_offset", u64), ("key_size", u64), ("value_offset", u64), ("value_size", u64)]


class SymbolFile(ctypes.Structure):
    """A file of simpleperf's symbol tables."""

    path_offset: int
    path_size: int
    min_vaddr: int
    symbols_start: int
    symbols_count: int
    min_vaddr_offset: int
    dex_offsets_start: int
    dex_offsets_count: int
    type: int
    info_type: int
    _fields_ = [("path_offset", u64), ("path_size", u64), ("min_vaddr", u64), ("symbols_start", u64), ("symbols_count", u64),
        ("min_vaddr_offset", u64), ("dex_offsets_start", u64), ("dex_offsets_count", u64), ("type", u32), ("info_type", u32)]


class Symbol(ctypes.Structure):
    """A symbol of a file of simpleperf's symbol tables."""

    vaddr: int
    size: int
    name_offset: int
    name_size: int
    _fields_ = [("vaddr", u64), ("size", u64), ("name_offset", u64), ("name_size", u64)]


class SymbolTotals(ctypes.Structure):
    """The totals over all files of simpleperf's symbol tables."""

    file_count: int
    symbol_count: int
    names_size: int
    dex_offset_count: int
    _fields_ = [("file_count", u64), ("symbol_count", u64), ("names_size", u64), ("dex_offset_count", u64)]


class JitHeader(ctypes.Structure):
    """The header of a jitdump."""

    timestamp: int
    flags: int
    version: int
    size: int
    elf_machine: int
    pid: int
    is_big_endian: int
    _fields_ = [("timestamp", u64), ("flags", u64), ("version", u32), ("size", u32), ("elf_machine", u32), ("pid", u32),
        ("is_big_endian", u32), ("_reserved", u32)]


class JitRecord(ctypes.Structure):
    """A record of a jitdump."""

    offset: int
    timestamp: int
    size: int
    _fields_ = [("offset", u64), ("timestamp", u64), ("_type", u32), ("size", u32)]


class JitLoad(ctypes.Structure):
    """A code load record of a jitdump. Offsets are in bytes from the start of the file."""

    vma: int
    code_address: int
    code_index: int
    name_offset: int
    name_size: int
    code_offset: int
    code_size: int
    pid: int
    tid: int
    _fields_ = [("vma", u64), ("code_address", u64), ("code_index", u64), ("name_offset", u64), ("name_size", u64), ("code_offset", u64),
        ("code_size", u64), ("pid", u32), ("tid", u32)]


class JitMove(ctypes.Structure):
    """A code move record of a jitdump."""

    vma: int
    old_code_address: int
    new_code_address: int
    code_size: int
    code_index: int
    pid: int
    tid: int
    _fields_ = [("vma", u64), ("old_code_address", u64), ("new_code_address", u64), ("code_size", u64), ("code_index", u64), ("pid", u32),
        ("tid", u32)]


class JitUnwinding(ctypes.Structure):
    """An unwinding info record of a jitdump. Offsets are in bytes from the start of the file."""

    mapped_size: int
    eh_frame_hdr_offset: int
    eh_frame_hdr_size: int
    eh_frame_offset: int
    eh_frame_size: int
    _fields_ = [("mapped_size", u64), ("eh_frame_hdr_offset", u64), ("eh_frame_hdr_size", u64), ("eh_frame_offset", u64),
        ("eh_frame_size", u64)]


class JitDebugEntry(ctypes.Structure):
    """A source location in a debug info record of a jitdump: of the code from its address up to the address of the next location."""

    code_address: int
    path_offset: int
    path_size: int
    line: int
    column: int
    _fields_ = [("code_address", u64), ("path_offset", u64), ("path_size", u64), ("line", u32), ("column", u32)]


class ElfSymbol(ctypes.Structure):
    """A symbol of an ELF file: a function, an object, or a label in code. Offsets are in bytes from the start of the file."""

    start: int
    size: int
    name_offset: int
    name_size: int
    _fields_ = [("start", u64), ("size", u64), ("name_offset", u64), ("name_size", u64)]


class Opening(ctypes.Structure):
    """Where the records of an input are, and the tables that its opening reads. Offsets are in bytes from the start of the input, sizes in
    bytes. What a pipe doesn't have is 0."""

    records_offset: int
    records_size: int
    attrs_offset: int
    attrs_size: int
    event_types_offset: int
    event_types_size: int
    features_offset: int
    features_size: int
    kind: int
    is_big_endian: int
    _fields_ = [("records_offset", u64), ("records_size", u64), ("attrs_offset", u64), ("attrs_size", u64), ("event_types_offset", u64),
        ("event_types_size", u64), ("features_offset", u64), ("features_size", u64), ("kind", u32), ("is_big_endian", u32)]


class Common(ctypes.Structure):
    """Who wrote a kernel record, when and where. What it doesn't have is 0: `fields` says what it has."""

    timestamp: int
    id: int
    stream_id: int
    fields: int
    cpu: int
    pid: int
    tid: int
    _fields_ = [("timestamp", u64), ("id", u64), ("stream_id", u64), ("fields", u32), ("cpu", u32), ("pid", i32), ("tid", i32)]


class Pmu(ctypes.Structure):
    """A unit of PMU_MAPPINGS: what counts the events of a type. Offsets are in bytes from the start of the section."""

    name_offset: int
    name_size: int
    next_offset: int
    event_type: int
    _fields_ = [("name_offset", u64), ("name_size", u64), ("next_offset", u64), ("event_type", u32), ("_reserved", u32)]


class Error(ctypes.Structure):
    """The first error of an input, in numbers. What the error doesn't have is 0."""

    offset: int
    attr_size: int
    entry_size: int
    attr_index: int
    magic: int
    status: int
    has_offset: int
    _fields_ = [("offset", u64), ("attr_size", u64), ("entry_size", u64), ("attr_index", u64), ("magic", u8 * 8), ("status", u32),
        ("has_offset", u32)]


# Of each struct the size, and the offset of each field.
_LAYOUTS = {
    Cursor: (16, (0, 8)),
    Record: (56, (0, 8, 16, 24, 32, 40, 48, 52, 54, 55)),
    Sample: (88, (0, 8, 16, 24, 32, 40, 48, 56, 60, 64, 68, 72, 76, 80, 82, 83)),
    Frame: (16, (0, 8, 12)),
    SampleDetails: (192, (0, 8, 16, 24, 32, 40, 48, 56, 64, 72, 80, 88, 96, 104, 112, 120, 128, 136, 144, 152, 160, 168, 176, 184)),
    Task: (56, (0, 8, 16, 24, 32, 36, 40, 44, 48, 52)),
    Mapping: (128, (0, 8, 16, 24, 32, 40, 48, 56, 64, 72, 76, 80, 84, 88, 92, 96, 100, 120, 121, 122, 124)),
    Counter: (48, (0, 8, 16, 24, 32, 40)),
    Stack: (80, (0, 8, 16, 24, 32, 40, 48, 56, 64, 68, 72, 74, 75)),
    StackFrame: (32, (0, 8, 16, 24, 28)),
    StackMapping: (80, (0, 8, 16, 24, 32, 40, 44, 48, 52, 56, 76)),
    StackTotals: (32, (0, 8, 16, 24)),
    Attr: (168, (0, 8, 16, 24, 32, 40, 48, 56, 64, 72, 80, 88, 96, 104, 112, 120, 128, 132, 136, 140, 144, 148, 152, 156, 160, 164)),
    AttrTotals: (24, (0, 8, 16)),
    FeatureSet: (32, (0, 8, 16, 24)),
    BuildId: (56, (0, 8, 16, 24, 32, 40, 44, 48, 50)),
    StringEntry: (24, (0, 8, 16)),
    MetaPair: (32, (0, 8, 16, 24)),
    SymbolFile: (72, (0, 8, 16, 24, 32, 40, 48, 56, 64, 68)),
    Symbol: (32, (0, 8, 16, 24)),
    SymbolTotals: (32, (0, 8, 16, 24)),
    JitHeader: (40, (0, 8, 16, 20, 24, 28, 32, 36)),
    JitRecord: (24, (0, 8, 16, 20)),
    JitLoad: (64, (0, 8, 16, 24, 32, 40, 48, 56, 60)),
    JitMove: (48, (0, 8, 16, 24, 32, 40, 44)),
    JitUnwinding: (40, (0, 8, 16, 24, 32)),
    JitDebugEntry: (32, (0, 8, 16, 24, 28)),
    ElfSymbol: (32, (0, 8, 16, 24)),
    Opening: (72, (0, 8, 16, 24, 32, 40, 48, 56, 64, 68)),
    Common: (40, (0, 8, 16, 24, 28, 32, 36)),
    Pmu: (32, (0, 8, 16, 24, 28)),
    Error: (48, (0, 8, 16, 24, 32, 40, 44)),
}
for _struct, _layout in _LAYOUTS.items():
    if (ctypes.sizeof(_struct), tuple(getattr(_struct, name).offset for name, *_ in _struct._fields_)) != _layout:
        raise ImportError(f"{_struct.__name__} has another layout than in the library")

# Of each export the type of its result, and those of its parameters.
_EXPORTS = {
    "dewikura_version": (u32, []),
    "dewikura_status_text": (c_size_t, [u32, c_void_p, c_size_t]),
    "dewikura_input_kind": (u32, [c_void_p, c_size_t]),
    "dewikura_is_big_endian": (u32, [c_void_p, c_size_t]),
    "dewikura_read_file_records": (u32, [c_void_p, c_size_t, POINTER(Cursor), POINTER(Record), c_size_t, POINTER(u64)]),
    "dewikura_read_pipe_records": (u32, [c_void_p, c_size_t, u64, POINTER(Record), c_size_t, POINTER(u64)]),
    "dewikura_read_file_samples": (u32, [c_void_p, c_size_t, POINTER(Cursor), POINTER(Sample), c_size_t, POINTER(u64), POINTER(Frame),
        c_size_t, POINTER(u64)]),
    "dewikura_read_pipe_samples": (u32, [c_void_p, c_size_t, POINTER(Sample), c_size_t, POINTER(u64), POINTER(Frame), c_size_t,
        POINTER(u64)]),
    "dewikura_read_sample_details": (u32, [c_void_p, c_size_t, u32, POINTER(Attr), POINTER(SampleDetails)]),
    "dewikura_read_file_tasks": (u32, [c_void_p, c_size_t, POINTER(Cursor), POINTER(Task), c_size_t, POINTER(u64)]),
    "dewikura_read_pipe_tasks": (u32, [c_void_p, c_size_t, POINTER(Task), c_size_t, POINTER(u64)]),
    "dewikura_read_file_mappings": (u32, [c_void_p, c_size_t, POINTER(Cursor), POINTER(Mapping), c_size_t, POINTER(u64)]),
    "dewikura_read_pipe_mappings": (u32, [c_void_p, c_size_t, POINTER(Mapping), c_size_t, POINTER(u64)]),
    "dewikura_read_file_counters": (u32, [c_void_p, c_size_t, POINTER(Cursor), POINTER(Counter), c_size_t, POINTER(u64)]),
    "dewikura_read_pipe_counters": (u32, [c_void_p, c_size_t, POINTER(Counter), c_size_t, POINTER(u64)]),
    "dewikura_read_file_stacks": (u32, [c_void_p, c_size_t, POINTER(Stack), c_size_t, POINTER(StackFrame), c_size_t, POINTER(StackMapping),
        c_size_t, c_void_p, c_size_t, POINTER(StackTotals)]),
    "dewikura_read_pipe_stacks": (u32, [c_void_p, c_size_t, POINTER(Stack), c_size_t, POINTER(StackFrame), c_size_t, POINTER(StackMapping),
        c_size_t, c_void_p, c_size_t, POINTER(StackTotals)]),
    "dewikura_sort_records": (u32, [POINTER(Record), c_size_t]),
    "dewikura_read_file_attrs": (u32, [c_void_p, c_size_t, POINTER(Attr), c_size_t, c_void_p, c_size_t, POINTER(u64), c_size_t,
        POINTER(AttrTotals)]),
    "dewikura_read_pipe_attrs": (u32, [c_void_p, c_size_t, POINTER(Attr), c_size_t, c_void_p, c_size_t, POINTER(u64), c_size_t,
        POINTER(AttrTotals)]),
    "dewikura_read_file_feature_set": (u32, [c_void_p, c_size_t, POINTER(FeatureSet)]),
    "dewikura_read_pipe_feature_set": (u32, [c_void_p, c_size_t, POINTER(FeatureSet)]),
    "dewikura_read_file_feature": (u32, [c_void_p, c_size_t, u32, c_void_p, c_size_t, POINTER(u8), POINTER(u64)]),
    "dewikura_read_pipe_feature": (u32, [c_void_p, c_size_t, u32, c_void_p, c_size_t, POINTER(u8), POINTER(u64)]),
    "dewikura_finish_recording": (u32, [c_void_p, c_size_t, c_void_p, c_size_t, POINTER(u64)]),
    "dewikura_decompress": (u32, [c_void_p, c_size_t, c_void_p, c_size_t, POINTER(u64)]),
    "dewikura_read_build_id": (u32, [c_void_p, c_size_t, u32, u64, POINTER(BuildId)]),
    "dewikura_dso_kind": (u32, [c_void_p, c_size_t, u16, POINTER(u32)]),
    "dewikura_read_string": (u32, [c_void_p, c_size_t, u32, u64, POINTER(StringEntry)]),
    "dewikura_read_numbers": (u32, [c_void_p, c_size_t, u32, u32, POINTER(u64), c_size_t, POINTER(u64)]),
    "dewikura_read_pmu": (u32, [c_void_p, c_size_t, u32, u64, POINTER(Pmu)]),
    "dewikura_read_meta_info": (u32, [c_void_p, c_size_t, POINTER(MetaPair), c_size_t, POINTER(u64)]),
    "dewikura_read_symbol_tables": (u32, [c_void_p, c_size_t, u32, u32, POINTER(SymbolFile), c_size_t, POINTER(Symbol), c_size_t, c_void_p,
        c_size_t, POINTER(u64), c_size_t, POINTER(SymbolTotals)]),
    "dewikura_read_jit_header": (u32, [c_void_p, c_size_t, POINTER(JitHeader)]),
    "dewikura_read_jit_records": (u32, [c_void_p, c_size_t, u64, POINTER(JitRecord), c_size_t, POINTER(u64), POINTER(u64)]),
    "dewikura_read_jit_load": (u32, [c_void_p, c_size_t, u64, POINTER(JitLoad)]),
    "dewikura_read_jit_move": (u32, [c_void_p, c_size_t, u64, POINTER(JitMove)]),
    "dewikura_read_jit_unwinding": (u32, [c_void_p, c_size_t, u64, POINTER(JitUnwinding)]),
    "dewikura_read_jit_debug_info": (u32, [c_void_p, c_size_t, u64, POINTER(u64), POINTER(JitDebugEntry), c_size_t, POINTER(u64)]),
    "dewikura_check_tracing_data": (u32, [c_void_p, c_size_t]),
    "dewikura_read_elf_symbols": (u32, [c_void_p, c_size_t, POINTER(ElfSymbol), c_size_t, POINTER(u64)]),
    "dewikura_elf_build_id": (u32, [c_void_p, c_size_t, POINTER(u8), c_size_t, POINTER(u64)]),
    "dewikura_demangle": (u32, [c_void_p, c_size_t, u32, c_void_p, c_size_t, POINTER(u64)]),
    "dewikura_read_error": (u32, [c_void_p, c_size_t, POINTER(Error)]),
    "dewikura_read_opening": (u32, [c_void_p, c_size_t, POINTER(Opening)]),
    "dewikura_read_chunk_records": (u32, [c_void_p, c_size_t, u32, POINTER(Attr), c_size_t, POINTER(u64), c_size_t, POINTER(Cursor),
        POINTER(Record), c_size_t, POINTER(u64), POINTER(u64)]),
    "dewikura_read_event": (u32, [c_void_p, c_size_t, u32, POINTER(Attr), c_size_t, POINTER(Record), POINTER(Sample), POINTER(Frame),
        c_size_t, POINTER(u64), POINTER(Task), POINTER(Mapping), POINTER(Counter), c_size_t, POINTER(u64)]),
    "dewikura_read_common": (u32, [c_void_p, c_size_t, u32, POINTER(Attr), c_size_t, POINTER(Record), POINTER(Common)]),
    "dewikura_read_late_attr": (u32, [c_void_p, c_size_t, u32, u64, POINTER(Attr), POINTER(u64), c_size_t, POINTER(u64)]),
    "dewikura_read_jit_chunk": (u32, [c_void_p, c_size_t, u32, u64, POINTER(JitRecord), c_size_t, POINTER(u64), POINTER(u64), POINTER(u8),
        POINTER(JitRecord)]),
}


def declare(library: ctypes.CDLL) -> None:
    """Sets the types of the library's exports."""
    for name, (result, parameters) in _EXPORTS.items():
        export = getattr(library, name)
        export.restype, export.argtypes = result, parameters
