"""Jitdumps."""

import ctypes
import dataclasses
import mmap
from ctypes import c_uint64 as u64
from typing import Any, Iterator, NamedTuple, Optional, Tuple, Union

from . import _native, _structs
from ._arrays import StructSequence
from ._input import Buffer, OpenInput, PathLike, map_file
from ._structs import JitRecord
from .constants import JitRecordType
from .errors import check


@dataclasses.dataclass(frozen=True)
class JitHeader:
    """The header of a jitdump."""

    timestamp: int
    flags: int
    version: int
    size: int
    elf_machine: int
    pid: int
    byteorder: str


class JitRecords(StructSequence[JitRecord]):
    """Records of a jitdump. `next_offset` is where the next call continues."""

    _struct = JitRecord

    def __init__(self, array: Any, indices: range, next_offset: int) -> None:
        super().__init__(array, indices)
        self.next_offset = next_offset

    def _slice(self, indices: range) -> "JitRecords":
        return JitRecords(self._array, indices, self.next_offset)


class JitLoad(NamedTuple):
    """A load record of a jitdump."""

    name: bytes
    code: memoryview
    vma: int
    code_address: int
    code_index: int
    pid: int
    tid: int


class JitMove(NamedTuple):
    """A move record of a jitdump."""

    vma: int
    old_code_address: int
    new_code_address: int
    code_size: int
    code_index: int
    pid: int
    tid: int


class JitUnwinding(NamedTuple):
    """An unwinding info record of a jitdump."""

    mapped_size: int
    eh_frame_hdr: memoryview
    eh_frame: memoryview


class JitDebugEntry(NamedTuple):
    """The source location of the code from its address up to the address of the next location. The column is 0 if it is unknown."""

    code_address: int
    line: int
    column: int
    path: bytes


class JitDebugInfo(NamedTuple):
    """A debug info record of a jitdump."""

    code_address: int
    entries: Tuple[JitDebugEntry, ...]


class JitDump(OpenInput["JitDump"]):
    """A jitdump."""

    _kind_name = "jitdump"

    def __init__(self, data: Buffer, mapping: Optional[mmap.mmap] = None, path: Optional[PathLike] = None) -> None:
        super().__init__(data, mapping)
        self._path = path

    def __repr__(self) -> str:
        return "<JitDump: closed>" if self._view is None else f"<JitDump: {len(self._view)} bytes>"

    def refresh(self) -> None:
        """Maps the file again after it has grown. A jitdump over a buffer stays as it is."""
        if self._path is not None:
            self.close()
            self._set(*map_file(self._path))

    @property
    def header(self) -> JitHeader:
        """The header."""
        found = _structs.JitHeader()
        with _native.Input(self._data) as (address, size):
            check(_native.read_jit_header(address, size, found))
        return JitHeader(found.timestamp, found.flags, found.version, found.size, found.elf_machine, found.pid,
                         "big" if found.is_big_endian else "little")

    def records(self, start: int = 0) -> JitRecords:
        """Returns the complete records from an offset on. Raises the first error after them."""
        data = self._data
        count, next_offset, capacity = u64(), u64(start), max(len(data) - start, 0) // 64 + 1
        array, total = (JitRecord * capacity)(), 0
        with _native.Input(data) as (address, size):
            while True:
                rest = (JitRecord * (capacity - total)).from_buffer(array, total * ctypes.sizeof(JitRecord))
                status = _native.read_jit_records(address, size, next_offset.value, rest, capacity - total, count, next_offset)
                total += count.value
                check(status, total)
                if total < capacity:
                    return JitRecords(array, range(total), next_offset.value)
                larger = (JitRecord * (2 * capacity))()
                ctypes.memmove(larger, array, ctypes.sizeof(array))
                array, capacity = larger, 2 * capacity

    def load(self, record: Union[JitRecord, int]) -> JitLoad:
        """Returns a load record, which is given as a record or by its offset."""
        data, found = self._data, _structs.JitLoad()
        with _native.Input(data) as (address, size):
            check(_native.read_jit_load(address, size, _offset_of(record), found))
        name = bytes(data[found.name_offset:found.name_offset + found.name_size])
        code = data[found.code_offset:found.code_offset + found.code_size].toreadonly()
        return JitLoad(name, code, found.vma, found.code_address, found.code_index, found.pid, found.tid)

    def move(self, record: Union[JitRecord, int]) -> JitMove:
        """Returns a move record, which is given as a record or by its offset."""
        found = _structs.JitMove()
        with _native.Input(self._data) as (address, size):
            check(_native.read_jit_move(address, size, _offset_of(record), found))
        return JitMove(*(getattr(found, name) for name in JitMove._fields))

    def unwinding(self, record: Union[JitRecord, int]) -> JitUnwinding:
        """Returns an unwinding info record, which is given as a record or by its offset."""
        data, found = self._data, _structs.JitUnwinding()
        with _native.Input(data) as (address, size):
            check(_native.read_jit_unwinding(address, size, _offset_of(record), found))
        eh_frame_hdr = data[found.eh_frame_hdr_offset:found.eh_frame_hdr_offset + found.eh_frame_hdr_size]
        eh_frame = data[found.eh_frame_offset:found.eh_frame_offset + found.eh_frame_size]
        return JitUnwinding(found.mapped_size, eh_frame_hdr.toreadonly(), eh_frame.toreadonly())

    def debug_info(self, record: Union[JitRecord, int]) -> JitDebugInfo:
        """Returns a debug info record, which is given as a record or by its offset."""
        data, code_address, count, capacity = self._data, u64(), u64(), 0
        with _native.Input(data) as (address, size):
            while True:
                entries = (_structs.JitDebugEntry * max(capacity, 1))()
                check(_native.read_jit_debug_info(address, size, _offset_of(record), code_address, entries, capacity, count))
                if count.value <= capacity:
                    break
                capacity = count.value
        return JitDebugInfo(code_address.value, tuple(
            JitDebugEntry(entry.code_address, entry.line, entry.column, bytes(data[entry.path_offset:entry.path_offset + entry.path_size]))
            for entry in entries[:count.value]))

    def loads(self) -> Iterator[JitLoad]:
        """Iterates over all load records."""
        return (self.load(record) for record in self.records() if record.type == JitRecordType.CODE_LOAD)


def _offset_of(record: Union[JitRecord, int]) -> int:
    return record.offset if isinstance(record, JitRecord) else record


def open_jitdump(path: PathLike) -> JitDump:
    """Maps a jitdump."""
    data, mapping = map_file(path)
    return JitDump(data, mapping, path)


def jitdump_from_buffer(data: Buffer) -> JitDump:
    """Reads a jitdump from a buffer, without a copy."""
    return JitDump(data)
