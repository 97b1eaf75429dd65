"""Reads perf.data files, perf pipes and jitdumps by a formally verified library."""

from ._native import library_version
from ._structs import Counter, Frame, JitRecord, Mapping, Record, Sample, SampleDetails, Stack, StackFrame, StackMapping, Task
from .constants import VERSION as _VERSION
from .constants import (AttrFlag, BodyError, CpuMode, DsoKind, EventType, Feature, FrameContext, InputKind, JitRecordType, MappingKind,
                        ReadFormat, RecordType, SampleType, Status, SymbolFileType)
from .elf import ElfSymbol, Symbols, build_id, symbols
from .errors import DewikuraError, FormatError, PerfDataError, TruncatedError, UnsupportedError
from .following import Follower, Page, follow
from .jitdump import (JitDebugEntry, JitDebugInfo, JitDump, JitHeader, JitLoad, JitMove, JitRecords, JitUnwinding, jitdump_from_buffer,
                      open_jitdump)
from .names import demangle
from .profiles import Comparison, Profile, profile
from .recording import (Attribute, BuildId, Counters, Frames, Kind, Mappings, Recording, Records, Samples, StackFrames, StackMappings, Stacks,
                        Symbol, SymbolFile, Tasks, decompress, from_buffer, input_kind, open)

__version__ = ".".join(map(str, _VERSION))

__all__ = [
    "AttrFlag", "Attribute", "BodyError", "BuildId", "Comparison", "Counter", "Counters", "CpuMode", "DewikuraError", "DsoKind",
    "ElfSymbol", "EventType", "Feature", "Follower", "FormatError", "Frame", "FrameContext", "Frames", "InputKind", "JitDebugEntry", "JitDebugInfo",
    "JitDump", "JitHeader", "JitLoad", "JitMove", "JitRecord", "JitRecordType", "JitRecords", "JitUnwinding", "Kind", "Mapping",
    "MappingKind", "Mappings", "Page", "PerfDataError", "Profile", "ReadFormat", "Record", "RecordType", "Recording", "Records", "Sample",
    "SampleDetails", "SampleType", "Samples", "Stack", "StackFrame", "StackFrames", "StackMapping", "StackMappings", "Stacks", "Status",
    "Symbol", "SymbolFile", "SymbolFileType", "Symbols", "Task", "Tasks", "TruncatedError", "UnsupportedError", "build_id",
    "decompress", "demangle", "follow", "from_buffer", "input_kind", "jitdump_from_buffer", "library_version", "open", "open_jitdump",
    "profile", "symbols",
]
