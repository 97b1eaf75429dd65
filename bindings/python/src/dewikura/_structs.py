"""The structs of dewikura.h, with properties where a field is a number of an enum or may be absent."""

from typing import Optional, Union

from . import _declarations
from ._declarations import (Attr, AttrTotals, BuildId, Cursor, ElfSymbol, FeatureSet, JitDebugEntry, JitHeader, JitLoad, JitMove, JitUnwinding, MetaPair,
                            Opening, SampleDetails, StackTotals, StringEntry, Symbol, SymbolFile, SymbolTotals)
from .constants import BodyError, CpuMode, FrameContext, JitRecordType, MappingKind, RecordType, SampleType


def known(kind, number):
    """The member of an enum with this number, or the number if the enum has none."""
    try:
        return kind(number)
    except ValueError:
        return number


class Record(_declarations.Record):
    """A record of a perf.data file or pipe."""

    @property
    def type(self) -> Union[RecordType, int]:
        """The type of the record."""
        return known(RecordType, self._type)

    @property
    def timestamp(self) -> Optional[int]:
        """The time in nanoseconds of the recording's clock, or None if the record has none."""
        return self._timestamp if self.has_timestamp else None

    @property
    def attr_index(self) -> Optional[int]:
        """The index of the record's attribute, or None for a record that a tool wrote."""
        return self._attr_index if self.has_attr else None

    def __repr__(self) -> str:
        return (f"Record(type={self.type!r}, offset={self.offset}, body_size={self.body_size}, "
                f"timestamp={self.timestamp}, attr_index={self.attr_index})")


class Sample(_declarations.Sample):
    """A sample. A field that it doesn't have is 0."""

    @property
    def fields(self) -> SampleType:
        """The fields that the sample has."""
        return SampleType(self._fields)

    @property
    def cpu_mode(self) -> Union[CpuMode, int]:
        """The mode of the processor."""
        return known(CpuMode, self.misc & 7)

    @property
    def error(self) -> BodyError:
        """Whether the fields up to the call chain are decoded."""
        return BodyError(self._error)

    def __repr__(self) -> str:
        return (f"Sample(offset={self.offset}, timestamp={self.timestamp}, attr_index={self.attr_index}, pid={self.pid}, tid={self.tid}, "
                f"ip={self.ip:#x}, period={self.period}, frames_count={self.frames_count})")


class Frame(_declarations.Frame):
    """A frame of a call chain."""

    @property
    def context(self) -> FrameContext:
        """The context of the address."""
        return FrameContext(self._context)

    def __repr__(self) -> str:
        return f"Frame(address={self.address:#x}, context={self.context!r})"


class Task(_declarations.Task):
    """A record on a task: its name, its start or its end."""

    @property
    def type(self) -> RecordType:
        """COMM for a name, FORK for a start, EXIT for an end."""
        return RecordType(self._type)

    @property
    def is_execve(self) -> bool:
        """Whether the task has this name because it executed another program."""
        return bool(self._is_execve)

    def __repr__(self) -> str:
        return f"Task(type={self.type!r}, offset={self.offset}, timestamp={self.timestamp}, pid={self.pid}, tid={self.tid})"


class Mapping(_declarations.Mapping):
    """A mapping of a file into memory. What it doesn't have is 0."""

    @property
    def type(self) -> RecordType:
        """MMAP or MMAP2."""
        return RecordType(self._type)

    @property
    def build_id(self) -> bytes:
        """The build id of the file; empty if the record has none."""
        return bytes(self._build_id[:self.build_id_size])

    @property
    def is_data(self) -> bool:
        """Whether the mapping isn't executable."""
        return bool(self._is_data)

    @property
    def cpu_mode(self) -> Union[CpuMode, int]:
        """KERNEL for a mapping of the kernel, USER for one of a program."""
        return known(CpuMode, self.misc & 7)

    def __repr__(self) -> str:
        return (f"Mapping(offset={self.offset}, timestamp={self.timestamp}, pid={self.pid}, address={self.address:#x}, length={self.length:#x}, "
                f"page_offset={self.page_offset:#x})")


class Counter(_declarations.Counter):
    """The value of a counter in a sample or in a READ record. What it doesn't have is 0. `offset` is that of the record."""

    def __repr__(self) -> str:
        return f"Counter(value={self.value}, id={self.id}, offset={self.offset})"


# The index of the mapping of a frame that has none (DEWIKURA_NO_MAPPING).
NO_MAPPING = 2**64 - 1


class Stack(_declarations.Stack):
    """A sample as a stack. What it doesn't have is 0."""

    @property
    def has_name(self) -> bool:
        """Whether a record names the thread."""
        return bool(self._has_name)

    @property
    def cpu_mode(self) -> Union[CpuMode, int]:
        """The mode of the processor."""
        return known(CpuMode, self.misc & 7)

    def __repr__(self) -> str:
        return (f"Stack(offset={self.offset}, timestamp={self.timestamp}, attr_index={self.attr_index}, pid={self.pid}, tid={self.tid}, "
                f"period={self.period}, frames_count={self.frames_count})")


class StackFrame(_declarations.StackFrame):
    """A frame of a stack. Its address is the recorded one; it is looked up at `lookup_address`, of which `mapping` and `file_offset` are."""

    @property
    def mapping(self) -> Optional[int]:
        """The index of the mapping in which the frame is looked up, or None."""
        return None if self._mapping == NO_MAPPING else self._mapping

    @property
    def context(self) -> FrameContext:
        """The context of the address."""
        return FrameContext(self._context)

    @property
    def is_caller(self) -> bool:
        """Whether the address is the one that a call returns to. Otherwise it is that of an instruction."""
        return bool(self._is_caller)

    @property
    def lookup_address(self) -> int:
        """The address at which the frame is looked up: of a caller the one before its address."""
        return max(self.address - 1, 0) if self._is_caller else self.address

    def __repr__(self) -> str:
        return f"StackFrame(address={self.address:#x}, context={self.context!r}, mapping={self.mapping}, file_offset={self.file_offset:#x})"


class StackMapping(_declarations.StackMapping):
    """What is mapped: a file, memory without a file, or a function that the kernel generated."""

    @property
    def kind(self) -> MappingKind:
        """Code, data, or a function that the kernel generated."""
        return MappingKind(self._kind)

    @property
    def build_id(self) -> bytes:
        """The build id of the file; empty if the record has none."""
        return bytes(self._build_id[:self.build_id_size])

    def __repr__(self) -> str:
        return f"StackMapping(pid={self.pid}, start={self.start:#x}, length={self.length:#x}, page_offset={self.page_offset:#x})"


class JitRecord(_declarations.JitRecord):
    """A record of a jitdump."""

    @property
    def type(self) -> Union[JitRecordType, int]:
        """The type of the record."""
        return known(JitRecordType, self._type)

    def __repr__(self) -> str:
        return f"JitRecord(type={self.type!r}, offset={self.offset}, timestamp={self.timestamp}, size={self.size})"
