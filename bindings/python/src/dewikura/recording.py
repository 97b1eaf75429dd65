"""Recordings: perf.data files and pipes."""

import contextlib
import ctypes
import dataclasses
import enum
import itertools
import mmap
import os
from array import array as number_array
from ctypes import c_uint8 as u8, c_uint64 as u64
from typing import (Any, Callable, Dict, Iterable, Iterator, List, Literal, Mapping as AnyMapping, NamedTuple, Optional, Tuple, Type,
                    TypeVar, Union)

from . import _native, _structs, elf
from ._arrays import StructSequence, words_of
from ._input import Buffer, OpenInput, PathLike, map_file
from ._structs import Counter, Frame, Mapping, Record, Sample, SampleDetails, Stack, StackFrame, StackMapping, Task, known
from .constants import AttrFlag, DsoKind, EventType, Feature, InputKind, MappingKind, ReadFormat, SampleType, Status, SymbolFileType
from .errors import PerfDataError, check, error_of

S = TypeVar("S", bound=StructSequence[Any])


class Kind(enum.Enum):
    """The form of a recording: a perf.data file, or perf's pipe format."""

    FILE = "file"
    PIPE = "pipe"


class Source(NamedTuple):
    """The input of a recording, whose names and paths the structs of its sequences refer to."""

    data: memoryview
    kind: Kind

    def texts(self, offsets: Iterable[int], sizes: Iterable[int]) -> List[str]:
        """The texts at these offsets. Bytes that aren't UTF-8 are written as `\\xNN`."""
        return [bytes(self.data[offset:offset + size]).decode("utf-8", "backslashreplace") for offset, size in zip(offsets, sizes)]

    def event_names(self, indices: Any) -> Any:
        """The names of the attributes with these indices, as a categorical; absent for -1 and for an attribute without a name."""
        import numpy
        import pandas

        attrs, names, _, count, _ = _read_attrs(self)
        texts = [_attr_name(attrs[index], names, "backslashreplace") for index in range(count)]
        return pandas.Categorical(numpy.array([*texts, None], dtype=object)[indices])


class Records(StructSequence[Record]):
    """The records of a recording, as a sequence over the array that the library filled."""

    _struct = Record

    def masked(self, field: Literal["timestamp", "attr_index"]) -> Any:
        """Returns `timestamp` or `attr_index` as a masked array, in which absent values are masked."""
        import numpy

        array = self.to_numpy()
        present = {"timestamp": "has_timestamp", "attr_index": "has_attr"}[field]
        return numpy.ma.masked_array(array[field], mask=array[present] == 0)

    def _columns(self, array: Any) -> Dict[str, Any]:
        import numpy
        import pandas

        columns = super()._columns(array)
        for name, has_value in (("timestamp", columns.pop("has_timestamp")), ("attr_index", columns.pop("has_attr"))):
            columns[name] = pandas.arrays.IntegerArray(array[name].copy(), has_value == 0)
        columns["event"] = self._source.event_names(numpy.where(array["has_attr"], array["attr_index"].astype("i8"), -1))
        return columns


class Frames(StructSequence[Frame]):
    """The frames of the samples of a recording, or of one sample."""

    _struct = Frame


class Samples(StructSequence[Sample]):
    """The samples of a recording, as a sequence over the array that the library filled."""

    _struct = Sample

    def __init__(self, array: Any, indices: range, frames: Frames, source: Any = None) -> None:
        super().__init__(array, indices, source)
        self._frames = frames

    def _slice(self, indices: range) -> "Samples":
        return Samples(self._array, indices, self._frames, self._source)

    def _columns(self, array: Any) -> Dict[str, Any]:
        return {**super()._columns(array), "event": self._source.event_names(array["attr_index"])}

    def frames_of(self, sample: Union[Sample, int]) -> Frames:
        """Returns the frames of a sample's call chain, innermost first."""
        if not isinstance(sample, Sample):
            sample = self[sample]
        return self._frames[sample.frames_start:sample.frames_start + sample.frames_count]


class Tasks(StructSequence[Task]):
    """The records on tasks of a recording: their names, starts and ends."""

    _struct = Task

    def _columns(self, array: Any) -> Dict[str, Any]:
        columns = super()._columns(array)
        columns["name"] = self._source.texts(columns.pop("name_offset").tolist(), columns.pop("name_size").tolist())
        columns["is_execve"] = array["is_execve"] != 0
        return columns


class Mappings(StructSequence[Mapping]):
    """The mappings of a recording."""

    _struct = Mapping

    def _columns(self, array: Any) -> Dict[str, Any]:
        columns = super()._columns(array)
        columns["path"] = self._source.texts(columns.pop("path_offset").tolist(), columns.pop("path_size").tolist())
        sizes = columns.pop("build_id_size").tolist()
        columns["build_id"] = [build_id[:size].tobytes().hex() for build_id, size in zip(array["build_id"], sizes)]
        columns["is_data"] = array["is_data"] != 0
        return columns


class Counters(StructSequence[Counter]):
    """The counter values of the samples and READ records of a recording."""

    _struct = Counter


class StackFrames(StructSequence[StackFrame]):
    """The frames of the stacks of a recording, or of one stack."""

    _struct = StackFrame

    def _columns(self, array: Any) -> Dict[str, Any]:
        import pandas

        columns = super()._columns(array)
        columns["mapping"] = pandas.arrays.IntegerArray(array["mapping"].copy(), array["mapping"] == _structs.NO_MAPPING)
        columns["is_caller"] = array["is_caller"] != 0
        return columns


class StackMappings(StructSequence[StackMapping]):
    """What was mapped, in the order in which it was mapped. `_source` has the text."""

    _struct = StackMapping

    def path(self, mapping: Union[StackMapping, int]) -> bytes:
        """Returns the path of a mapping, or the name of a function that the kernel generated."""
        if not isinstance(mapping, StackMapping):
            mapping = self[mapping]
        return bytes(self._source.data[mapping.path_offset:mapping.path_offset + mapping.path_size])

    def _columns(self, array: Any) -> Dict[str, Any]:
        columns = super()._columns(array)
        columns["path"] = self._source.texts(columns.pop("path_offset").tolist(), columns.pop("path_size").tolist())
        sizes = columns.pop("build_id_size").tolist()
        columns["build_id"] = [build_id[:size].tobytes().hex() for build_id, size in zip(array["build_id"], sizes)]
        return columns


def _file_symbols(path: str) -> Optional[elf.Symbols]:
    """The symbols of a file, or None if it isn't an ELF file that can be read."""
    if not os.path.isfile(path):
        return None
    try:
        return elf.symbols(path)
    except (OSError, PerfDataError):
        return None


def _names(symbols: Optional[elf.Symbols], offsets: List[int]) -> Iterable[Optional[str]]:
    """The texts of the symbols at offsets in a file."""
    if symbols is None:
        return itertools.repeat(None)
    indices = symbols.find_indices(offsets)
    texts = {index: elf.symbol_text(symbols.name(index)) for index in set(indices) if index >= 0}
    return map(texts.get, indices)


class Stacks(StructSequence[Stack]):
    """The samples of a recording in order of time, as stacks, with their `frames` and the `mappings` of these.

    Frames are those of the call chains. Copies of stacks (`--call-graph dwarf`) aren't unwound, but by `dewikura.profile`.
    """

    _struct = Stack

    def __init__(self, array: Any, indices: range, source: Any, frames: StackFrames, mappings: StackMappings) -> None:
        super().__init__(array, indices, source)
        self.frames = frames
        self.mappings = mappings

    def _slice(self, indices: range) -> "Stacks":
        return Stacks(self._array, indices, self._source, self.frames, self.mappings)

    def _columns(self, array: Any) -> Dict[str, Any]:
        columns = super()._columns(array)
        names = self.mappings._source.texts(columns.pop("name_offset").tolist(), columns.pop("name_size").tolist())
        columns["name"] = [name if has_name else None for name, has_name in zip(names, columns.pop("has_name").tolist())]
        return {**columns, "event": self._source.event_names(array["attr_index"].astype("i8"))}

    def frames_of(self, stack: Union[Stack, int]) -> StackFrames:
        """Returns the frames of a stack, innermost first."""
        if not isinstance(stack, Stack):
            stack = self[stack]
        return self.frames[stack.frames_start:stack.frames_start + stack.frames_count]

    def name(self, stack: Union[Stack, int]) -> Optional[bytes]:
        """Returns the name of the thread at the time of a stack, or None if no record names it."""
        if not isinstance(stack, Stack):
            stack = self[stack]
        if not stack.has_name:
            return None
        return bytes(self.mappings._source.data[stack.name_offset:stack.name_offset + stack.name_size])

    def functions(self, symfs: str = "") -> List[Optional[str]]:
        """Returns the name of the function of each frame of `frames`: by the symbols of its mapped file, which is looked for below `symfs`.
        It is None where no file or no symbol is found. Inlined functions aren't shown, and copies of stacks aren't unwound."""
        names: List[Optional[str]] = [None] * len(self.frames)
        positions: Dict[int, List[int]] = {}
        for position, frame in enumerate(self.frames):
            positions.setdefault(frame._mapping, []).append(position)
        positions.pop(_structs.NO_MAPPING, None)
        tables: Dict[str, Optional[elf.Symbols]] = {}
        for index, of_mapping in positions.items():
            path = os.fsdecode(self.mappings.path(index))
            if self.mappings[index].kind == MappingKind.KERNEL_SYMBOL:
                found: Iterable[Optional[str]] = itertools.repeat(path)
            else:
                if path not in tables:
                    tables[path] = _file_symbols(symfs + path)
                found = _names(tables[path], [self.frames[position].file_offset for position in of_mapping])
            for position, name in zip(of_mapping, found):
                names[position] = name
        return names

    def mapping_of(self, frame: StackFrame) -> Optional[StackMapping]:
        """Returns the mapping in which a frame of a stack is looked up, or None."""
        return None if frame.mapping is None else self.mappings[frame.mapping]


@dataclasses.dataclass(frozen=True)
class Attribute:
    """An event attribute: perf_event_attr, by the kernel's names."""

    index: int
    name: Optional[str]
    ids: Tuple[int, ...]
    type: Union[EventType, int]
    config: int
    config1: int
    config2: int
    config3: int
    sample_period: Optional[int]
    sample_freq: Optional[int]
    sample_type: SampleType
    read_format: ReadFormat
    flags: AttrFlag
    size: int
    wakeup_events: int
    bp_type: int
    branch_sample_type: int
    sample_regs_user: int
    sample_regs_intr: int
    sample_stack_user: int
    clockid: int
    aux_watermark: int
    aux_sample_size: int
    sample_max_stack: int
    sig_data: int


_SAME_NAMES = ("config", "config1", "config2", "config3", "size", "wakeup_events", "bp_type", "branch_sample_type", "sample_regs_user",
               "sample_regs_intr", "sample_stack_user", "clockid", "aux_watermark", "aux_sample_size", "sample_max_stack", "sig_data")


def _attr_name(attr: _structs.Attr, names: bytes, errors: str = "surrogateescape") -> Optional[str]:
    return names[attr.name_offset:attr.name_offset + attr.name_size].decode("utf-8", errors) if attr.has_name else None


def _read_attrs(source: Source) -> Tuple[Any, bytes, Any, int, int]:
    """The attributes, their names and ids, the number of attributes, and the status."""
    totals, capacities = _structs.AttrTotals(), (0, 0, 0)
    while True:
        attrs, names, ids = ((kind * max(count, 1))() for kind, count in zip((_structs.Attr, u8, u64), capacities))
        with _native.Input(source.data) as (address, size):
            status = _native.read_attrs[source.kind.value](
                address, size, attrs, capacities[0], names, capacities[1], ids, capacities[2], totals)
        found = totals.attr_count, totals.names_size, totals.ids_count
        if found == capacities:
            return attrs, bytes(names), ids, totals.attr_count, status
        capacities = found


def _attribute(index: int, attr: _structs.Attr, names: bytes, ids) -> Attribute:
    flags = AttrFlag(attr.flags)
    period = attr.sample_period_or_freq
    is_freq = bool(flags & AttrFlag.FREQ)
    return Attribute(
        index=index, name=_attr_name(attr, names), ids=tuple(ids[attr.ids_start:attr.ids_start + attr.ids_count]), type=known(EventType, attr.type),
        sample_period=None if is_freq else period, sample_freq=period if is_freq else None, sample_type=SampleType(attr.sample_type),
        read_format=ReadFormat(attr.read_format), flags=flags, **{field: getattr(attr, field) for field in _SAME_NAMES})


class BuildId(NamedTuple):
    """An entry of the BUILD_ID section."""

    build_id: bytes
    path: bytes
    kind: DsoKind
    pid: int
    misc: int


class Symbol(NamedTuple):
    """A symbol of a file. Its address is one in the file's own address space, and its size is in bytes."""

    vaddr: int
    size: int
    name: str


class SymbolFile(NamedTuple):
    """A file of simpleperf's symbol tables.

    `min_vaddr_offset` is where the lowest address `min_vaddr` is in an ELF file, or in the memory of a kernel module; None for others.
    `dex_offsets` are the offsets of the DEX files in a file with DEX code.
    """

    path: str
    type: Union[SymbolFileType, int]
    min_vaddr: int
    symbols: Tuple[Symbol, ...]
    min_vaddr_offset: Optional[int]
    dex_offsets: Tuple[int, ...]


def _symbol_file(file: _structs.SymbolFile, symbols, names: bytes, offsets) -> SymbolFile:
    def text(offset: int, size: int) -> str:
        return names[offset:offset + size].decode("utf-8")

    own = symbols[file.symbols_start:file.symbols_start + file.symbols_count]
    has_offset = file.info_type in (SymbolFileType.KERNEL_MODULE, SymbolFileType.ELF)
    return SymbolFile(
        text(file.path_offset, file.path_size), known(SymbolFileType, file.type), file.min_vaddr,
        tuple(Symbol(symbol.vaddr, symbol.size, text(symbol.name_offset, symbol.name_size)) for symbol in own),
        file.min_vaddr_offset if has_offset else None,
        tuple(offsets[file.dex_offsets_start:file.dex_offsets_start + file.dex_offsets_count]))


class _Growing:
    """An array of structs with free capacity after those in use."""

    def __init__(self, struct: Any, capacity: int) -> None:
        self.struct, self.capacity, self.used = struct, capacity, 0
        self.array = (struct * capacity)()

    def free(self) -> Any:
        """The elements after those in use."""
        return (self.struct * (self.capacity - self.used)).from_buffer(self.array, self.used * ctypes.sizeof(self.struct))

    def added(self, count: int) -> Any:
        """The first elements after those in use."""
        return itertools.islice(self.free(), count)

    def grow(self, count: int) -> None:
        """Makes room for as many more elements, and for some more, unless there is."""
        if self.capacity - self.used < count:
            self.capacity = max(2 * self.capacity, self.used + count)
            larger = (self.struct * self.capacity)()
            ctypes.memmove(larger, self.array, ctypes.sizeof(self.array))
            self.array = larger


class _Features(AnyMapping[int, memoryview]):
    """The feature sections of a recording, by number. A section is read when it is first used."""

    def __init__(self, recording: "Recording", numbers: Tuple[int, ...]) -> None:
        self._recording = recording
        self._numbers = dict.fromkeys(numbers)

    def __len__(self) -> int:
        return len(self._numbers)

    def __iter__(self) -> Iterator[int]:
        return map(lambda number: known(Feature, number), self._numbers)

    def __contains__(self, number: object) -> bool:
        return number in self._numbers

    def __getitem__(self, number: int) -> memoryview:
        section = self._numbers[number]
        if section is None:
            section = self._numbers[number] = memoryview(self._recording._read_feature(number)).toreadonly()
        return section


class Recording(OpenInput["Recording"]):
    """A perf.data file or pipe. Everything is read once, when it is first used, and kept."""

    _kind_name = "recording"

    def __init__(self, data: Buffer, kind: Kind, mapping: Optional[mmap.mmap] = None) -> None:
        super().__init__(data, mapping)
        self._kept: dict = {}
        self.kind = kind

    def __repr__(self) -> str:
        return "<Recording: closed>" if self._view is None else f"<Recording: {self.kind.value}, {len(self._view)} bytes>"

    @property
    def _source(self) -> Source:
        return Source(self._data, self.kind)

    def _keep(self, name: str, read):
        data = self._data
        if name not in self._kept:
            self._kept[name] = read(data)
        return self._kept[name]

    @property
    def byteorder(self) -> Literal["little", "big"]:
        """The byte order of the recording, "little" or "big"."""
        with _native.Input(self._data) as (address, size):
            return "big" if _native.is_big_endian(address, size) else "little"

    def partial_records(self) -> Tuple[Records, Optional[Exception]]:
        """Returns the records before the first error, and that error, or None if there is none."""
        return self._keep("records", self._read_records)

    @property
    def records(self) -> Records:
        """All records in the order of the input. Raises the first error of the input."""
        records, error = self.partial_records()
        if error is not None:
            raise error
        return records

    def records_by_time(self) -> Records:
        """A copy of all records in order of time: those without a time first, records with one time in the order of the input."""
        return self._keep("records_by_time", lambda _data: self._records_sorted(self.records))

    def partial_samples(self) -> Tuple[Samples, Optional[Exception]]:
        """Returns the samples before the first error, and that error, or None if there is none."""
        return self._keep("samples", self._read_samples)

    @property
    def samples(self) -> Samples:
        """All samples in the order of the input, decoded. Raises the first error of the input."""
        samples, error = self.partial_samples()
        if error is not None:
            raise error
        return samples

    @property
    def frames(self) -> Frames:
        """The frames of all samples, in the order of the samples. Raises the first error of the input."""
        return self.samples._frames

    def details(self, record: Record) -> SampleDetails:
        """Returns what else the record of a sample has. Its offsets are those in `body(record)`."""
        details, attribute = SampleDetails(), self._keep("attrs", lambda _data: self._read_attrs())[0][record.attr_index]
        with _native.Input(self.body(record)) as (address, size):
            check(_native.read_sample_details(address, size, self.byteorder == "big", attribute, details))
        return details

    def samples_by_time(self) -> Samples:
        """A copy of all samples in order of time: those without a time first, samples with one time in the order of the input."""
        return self._keep("samples_by_time", lambda _data: self._samples_sorted(self.samples))

    def partial_stacks(self) -> Tuple[Stacks, Optional[Exception]]:
        """Returns the stacks of the samples before the first error, and that error, or None if there is none."""
        return self._keep("stacks", self._read_stacks)

    @property
    def stacks(self) -> Stacks:
        """All samples in order of time, as stacks: their frames with mappings, and the names of threads. Raises the first error of the
        input."""
        stacks, error = self.partial_stacks()
        if error is not None:
            raise error
        return stacks

    def mapping_of(self, frame: StackFrame) -> Optional[StackMapping]:
        """Returns the mapping in which a frame of `stacks` is looked up, or None."""
        return self.partial_stacks()[0].mapping_of(frame)

    def partial_tasks(self) -> Tuple[Tasks, Optional[Exception]]:
        """Returns the records on tasks before the first error, and that error, or None if there is none."""
        return self._keep("tasks", lambda data: self._read_entries(data, Tasks))

    @property
    def tasks(self) -> Tasks:
        """All records on tasks (COMM, FORK and EXIT) in the order of the input, decoded. Raises the first error of the input."""
        tasks, error = self.partial_tasks()
        if error is not None:
            raise error
        return tasks

    def name(self, task: Task) -> bytes:
        """Returns the name that a record of `tasks` gives to its task; empty for a start or an end."""
        return bytes(self._data[task.name_offset:task.name_offset + task.name_size])

    def partial_mappings(self) -> Tuple[Mappings, Optional[Exception]]:
        """Returns the mappings before the first error, and that error, or None if there is none."""
        return self._keep("mappings", lambda data: self._read_entries(data, Mappings))

    @property
    def mappings(self) -> Mappings:
        """All mappings (MMAP and MMAP2) in the order of the input, decoded. Raises the first error of the input."""
        mappings, error = self.partial_mappings()
        if error is not None:
            raise error
        return mappings

    def path(self, mapping: Union[Mapping, StackMapping]) -> bytes:
        """Returns the path of the file of a mapping, of `mappings` or of `stacks.mappings`."""
        if isinstance(mapping, StackMapping):
            return self.partial_stacks()[0].mappings.path(mapping)
        return bytes(self._data[mapping.path_offset:mapping.path_offset + mapping.path_size])

    def partial_counters(self) -> Tuple[Counters, Optional[Exception]]:
        """Returns the counter values before the first error, and that error, or None if there is none."""
        return self._keep("counters", lambda data: self._read_entries(data, Counters))

    @property
    def counters(self) -> Counters:
        """All counter values of samples and READ records in the order of the input. Raises the first error of the input."""
        counters, error = self.partial_counters()
        if error is not None:
            raise error
        return counters

    def events(self) -> Iterator[Record]:
        """Iterates over the records with an attribute, which the kernel wrote."""
        return filter(lambda record: record.has_attr, self.records)

    def body(self, record: Union[Record, int]) -> memoryview:
        """Returns a view of the bytes of a record's body, aux data included."""
        data = self._data
        if not isinstance(record, Record):
            record = self.partial_records()[0][record]
        return data[record.body_offset:record.body_offset + record.body_size].toreadonly()

    @property
    def attributes(self) -> Tuple[Attribute, ...]:
        """The event attributes, with their names and ids."""
        return self._keep("attributes", lambda _data: self._read_attributes())

    @property
    def features(self) -> AnyMapping[int, memoryview]:
        """The feature sections, by number."""
        return self._keep("features", self._read_feature_set)

    @property
    def build_ids(self) -> Tuple[BuildId, ...]:
        """The entries of the BUILD_ID section; empty without one."""
        return self._keep("build_ids", self._read_build_ids)

    @property
    def simpleperf_meta_info(self) -> AnyMapping[str, str]:
        """Simpleperf's meta info on the recording; empty without it. The last value of a key counts."""
        return self._keep("simpleperf_meta_info", lambda _data: self._read_meta_info())

    @property
    def simpleperf_symbols(self) -> Tuple[SymbolFile, ...]:
        """The files of simpleperf's symbol tables, with their symbols; empty without these tables."""
        return self._keep("simpleperf_symbols", lambda _data: self._read_symbol_tables())

    def strings(self, feature: int, start: int = 0) -> Iterator[str]:
        """Iterates over the strings of a feature section, from an offset on; none if the recording doesn't have the section."""
        section = self.features.get(feature, memoryview(b""))
        is_big_endian, found = self.byteorder == "big", _structs.StringEntry(next_offset=start)
        while found.next_offset < len(section):
            with _native.Input(section) as (address, size):
                check(_native.read_string(address, size, is_big_endian, found.next_offset, found))
            yield bytes(section[found.text_offset:found.text_offset + found.text_size]).decode("utf-8", "surrogateescape")

    @property
    def hostname(self) -> Optional[str]:
        """The name of the machine, as `uname -n` prints it."""
        return next(self.strings(Feature.HOSTNAME), None)

    @property
    def os_release(self) -> Optional[str]:
        """The release of the system, as `uname -r` prints it."""
        return next(self.strings(Feature.OSRELEASE), None)

    @property
    def perf_version(self) -> Optional[str]:
        """The version of the recording tool."""
        return next(self.strings(Feature.VERSION), None)

    @property
    def arch(self) -> Optional[str]:
        """The architecture of the processor, as `uname -m` prints it."""
        return next(self.strings(Feature.ARCH), None)

    @property
    def cpu_desc(self) -> Optional[str]:
        """The description of the processor."""
        return next(self.strings(Feature.CPUDESC), None)

    @property
    def cpu_id(self) -> Optional[str]:
        """The identifier of the processor."""
        return next(self.strings(Feature.CPUID), None)

    @property
    def cmdline(self) -> Tuple[str, ...]:
        """The command-line arguments of the recording tool; empty if the recording doesn't have them."""
        section = self.features.get(Feature.CMDLINE, memoryview(b""))
        return tuple(itertools.islice(self.strings(Feature.CMDLINE, 4), int.from_bytes(section[:4], self.byteorder)))

    def _read_records(self, data: memoryview) -> Tuple[Records, Optional[Exception]]:
        read = self._read_file_records if self.kind is Kind.FILE else self._read_pipe_records
        array, count, status = read(data)
        error = None if status == Status.OK else error_of(status, count)
        return Records(array, range(count), self._source), error

    @staticmethod
    def _read_file_records(data: memoryview) -> Tuple[Any, int, int]:
        """Fills an array, which grows while the file has more records."""
        cursor, count, total, capacity = _structs.Cursor(), u64(), 0, len(data) // 32 + 1
        array = (Record * capacity)()
        with _native.Input(data) as (address, size):
            while True:
                rest = (Record * (capacity - total)).from_buffer(array, total * ctypes.sizeof(Record))
                status = _native.read_file_records(address, size, cursor, rest, capacity - total, count)
                total += count.value
                if status != Status.OK or total < capacity:
                    return array, total, status
                capacity *= 2
                larger = (Record * capacity)()
                ctypes.memmove(larger, array, ctypes.sizeof(array))
                array = larger

    @staticmethod
    def _read_pipe_records(data: memoryview) -> Tuple[Any, int, int]:
        """Fills an array, and then a larger one if the pipe has more records."""
        total, capacity = u64(), len(data) // 32 + 1
        while True:
            array = (Record * capacity)()
            with _native.Input(data) as (address, size):
                status = _native.read_pipe_records(address, size, 0, array, capacity, total)
            if total.value <= capacity:
                return array, total.value, status
            capacity = total.value

    def _read_samples(self, data: memoryview) -> Tuple[Samples, Optional[Exception]]:
        read = self._read_file_samples if self.kind is Kind.FILE else self._read_pipe_samples
        samples, count, frames, frames_count, status = read(data)
        error = None if status == Status.OK else error_of(status)
        return Samples(samples, range(count), Frames(frames, range(frames_count)), self._source), error

    @staticmethod
    def _read_file_samples(data: memoryview) -> Tuple[Any, int, Any, int, int]:
        """Fills arrays, which grow while the file has more samples."""
        cursor, count, frames_count = _structs.Cursor(), u64(), u64()
        samples, frames = _Growing(Sample, len(data) // 32 + 1), _Growing(Frame, len(data) // 16 + 1)
        with _native.Input(data) as (address, size):
            while True:
                status = _native.read_file_samples(address, size, cursor, samples.free(), samples.capacity - samples.used, count,
                                                   frames.free(), frames.capacity - frames.used, frames_count)
                if status == Status.NO_SPACE:
                    frames.grow(frames_count.value)
                    continue
                if frames.used:
                    for sample in samples.added(count.value):
                        sample.frames_start += frames.used
                samples.used += count.value
                frames.used += frames_count.value
                if status != Status.OK or (count.value == 0 and samples.used < samples.capacity):
                    return samples.array, samples.used, frames.array, frames.used, status
                samples.grow(1)
                frames.grow(1)

    @staticmethod
    def _read_pipe_samples(data: memoryview) -> Tuple[Any, int, Any, int, int]:
        """Counts the samples and the frames of a pipe, and fills arrays for them."""
        total, frames_total, samples, frames = u64(), u64(), (Sample * 1)(), (Frame * 1)()
        capacity, frames_capacity = 0, 0
        while True:
            with _native.Input(data) as (address, size):
                status = _native.read_pipe_samples(address, size, samples, capacity, total, frames, frames_capacity, frames_total)
            if (capacity, frames_capacity) == (total.value, frames_total.value):
                return samples, capacity, frames, frames_capacity, status
            capacity, frames_capacity = total.value, frames_total.value
            samples, frames = (Sample * max(capacity, 1))(), (Frame * max(frames_capacity, 1))()

    def _read_stacks(self, data: memoryview) -> Tuple[Stacks, Optional[Exception]]:
        """Fills arrays, and then larger ones if the recording has more."""
        totals, size = _structs.StackTotals(), len(data)
        capacities = size // 64 + 1, size // 16 + 1, size // 512 + 1, size // 64 + 1
        while True:
            stacks, frames, mappings, text = ((kind * count)() for kind, count in zip((Stack, StackFrame, StackMapping, u8), capacities))
            with _native.Input(data) as (address, size):
                status = _native.read_stacks[self.kind.value](
                    address, size, stacks, capacities[0], frames, capacities[1], mappings, capacities[2], text, capacities[3], totals)
            counts = totals.stack_count, totals.frame_count, totals.mapping_count, totals.text_size
            if all(count <= capacity for count, capacity in zip(counts, capacities)):
                break
            capacities = tuple(map(max, counts, capacities))
        texts = Source(memoryview(text).cast("B"), self.kind)
        found = StackFrames(frames, range(counts[1])), StackMappings(mappings, range(counts[2]), texts)
        error = None if status == Status.OK else error_of(status)
        return Stacks(stacks, range(counts[0]), self._source, *found), error

    def _read_entries(self, data: memoryview, kind: Type[S]) -> Tuple[S, Optional[Exception]]:
        read = self._read_file_entries if self.kind is Kind.FILE else self._read_pipe_entries
        array, count, status = read(data, kind._struct)
        return kind(array, range(count), self._source), None if status == Status.OK else error_of(status)

    @staticmethod
    def _read_file_entries(data: memoryview, struct: Any) -> Tuple[Any, int, int]:
        """Fills an array, which grows while the file has more entries."""
        read, cursor, count, entries = _native.read_file_entries[struct], _structs.Cursor(), u64(), _Growing(struct, len(data) // 1024 + 1)
        with _native.Input(data) as (address, size):
            while True:
                status = read(address, size, cursor, entries.free(), entries.capacity - entries.used, count)
                if status == Status.NO_SPACE:
                    entries.grow(count.value)
                    continue
                entries.used += count.value
                if status != Status.OK or count.value == 0:
                    return entries.array, entries.used, status
                entries.grow(1)

    @staticmethod
    def _read_pipe_entries(data: memoryview, struct: Any) -> Tuple[Any, int, int]:
        """Fills an array, and then a larger one if the pipe has more entries."""
        read, total, capacity = _native.read_pipe_entries[struct], u64(), len(data) // 1024 + 1
        while True:
            array = (struct * capacity)()
            with _native.Input(data) as (address, size):
                status = read(address, size, array, capacity, total)
            if total.value <= capacity:
                return array, total.value, status
            capacity = total.value

    def _records_sorted(self, records: Records) -> Records:
        array = (Record * max(len(records), 1))()
        ctypes.memmove(array, records._array, len(records) * ctypes.sizeof(Record))
        check(_native.sort_records(array, len(records)))
        return Records(array, range(len(records)), self._source)

    def _samples_sorted(self, samples: Samples) -> Samples:
        """Sorts records that have the times and the indices of the samples, and copies the samples in the order of these indices."""
        count = len(samples)
        if count == 0:
            return samples
        records, sorted_samples = (Record * count)(), (Sample * count)()
        words_of(records, Record._timestamp.offset)[:] = words_of(samples._array, Sample.timestamp.offset)[:count]
        words_of(records, Record.offset.offset)[:] = memoryview(number_array("Q", range(count)))
        memoryview(records).cast("B")[Record.has_timestamp.offset::ctypes.sizeof(Record)] = b"\1" * count
        check(_native.sort_records(records, count))
        order = number_array("Q", words_of(records, Record.offset.offset))
        for offset in range(0, ctypes.sizeof(Sample), 8):
            words = words_of(samples._array, offset)
            words_of(sorted_samples, offset)[:] = memoryview(number_array("Q", map(words.__getitem__, order)))
        return Samples(sorted_samples, range(count), samples._frames, self._source)

    def _read_attrs(self) -> Tuple[Any, bytes, Any, int]:
        """The attributes, their names and ids, and the number of attributes."""
        *found, status = _read_attrs(self._source)
        check(status)
        return tuple(found)

    def _read_attributes(self) -> Tuple[Attribute, ...]:
        attrs, names, ids, count = self._keep("attrs", lambda _data: self._read_attrs())
        return tuple(_attribute(index, attrs[index], names, ids) for index in range(count))

    def _read_feature_set(self, data: memoryview) -> _Features:
        found = _structs.FeatureSet()
        with _native.Input(data) as (address, size):
            check(_native.read_feature_set[self.kind.value](address, size, found))
        bits = found.bits0 | found.bits1 << 64 | found.bits2 << 128 | found.bits3 << 192
        return _Features(self, tuple(number for number in range(256) if bits >> number & 1))

    def _read_feature(self, number: int) -> bytes:
        is_present, section_size, capacity = u8(), u64(), 0
        while True:
            buffer = (u8 * max(capacity, 1))()
            with _native.Input(self._data) as (address, size):
                check(_native.read_feature[self.kind.value](address, size, number, buffer, capacity, is_present, section_size))
            if section_size.value <= capacity:
                return ctypes.string_at(buffer, section_size.value)
            capacity = section_size.value

    def _read_build_ids(self, data: memoryview) -> Tuple[BuildId, ...]:
        if Feature.BUILD_ID not in self.features:
            return ()
        section, entry, found = self.features[Feature.BUILD_ID], _structs.BuildId(), []
        is_big_endian = self.byteorder == "big"
        with _native.Input(section) as (address, size):
            while (status := _native.read_build_id(address, size, is_big_endian, entry.next_offset, entry)) == Status.OK:
                build_id = bytes(section[entry.id_offset:entry.id_offset + entry.id_size])
                path = bytes(section[entry.path_offset:entry.path_offset + entry.path_size])
                found.append(BuildId(build_id, path, DsoKind(entry.dso_kind), entry.pid, entry.misc))
        if status != Status.TRUNCATED:
            check(status)
        return tuple(found)

    def _read_meta_info(self) -> AnyMapping[str, str]:
        section, count, capacity = self.features.get(Feature.SIMPLEPERF_META_INFO, memoryview(b"")), u64(), 0
        with _native.Input(section) as (address, size):
            while True:
                pairs = (_structs.MetaPair * max(capacity, 1))()
                check(_native.read_meta_info(address, size, pairs, capacity, count))
                if count.value <= capacity:
                    break
                capacity = count.value

        def text(offset: int, size: int) -> str:
            return bytes(section[offset:offset + size]).decode("utf-8")

        return {text(pair.key_offset, pair.key_size): text(pair.value_offset, pair.value_size) for pair in pairs[:count.value]}

    def _read_symbol_tables(self) -> Tuple[SymbolFile, ...]:
        feature = next((feature for feature in (Feature.SIMPLEPERF_FILE2, Feature.SIMPLEPERF_FILE) if feature in self.features), None)
        if feature is None:
            return ()
        section, is_big_endian = self.features[feature], self.byteorder == "big"
        totals, capacities = _structs.SymbolTotals(), (0, 0, 0, 0)
        with _native.Input(section) as (address, size):
            while True:
                files, symbols, names, offsets = ((kind * max(count, 1))() for kind, count in zip(
                    (_structs.SymbolFile, _structs.Symbol, u8, u64), capacities))
                check(_native.read_symbol_tables(address, size, feature, is_big_endian, files, capacities[0], symbols, capacities[1],
                                                 names, capacities[2], offsets, capacities[3], totals))
                found = totals.file_count, totals.symbol_count, totals.names_size, totals.dex_offset_count
                if found == capacities:
                    break
                capacities = found
        all_names = bytes(names)
        return tuple(_symbol_file(file, symbols, all_names, offsets) for file in files[:totals.file_count])


def input_kind(data: Buffer) -> InputKind:
    """The kind of an input by its first 16 bytes: a perf.data file, a pipe, a jitdump, or none of them."""
    with _native.Input(data) as (address, size):
        return InputKind(_native.input_kind(address, size))


def _kind_of(data: memoryview) -> Kind:
    return Kind.PIPE if input_kind(data) == InputKind.PIPE else Kind.FILE


def _written(write: Callable[..., int], data: Buffer) -> bytes:
    """The recording that an export writes for an input. Its first error is in the recording too, unless the input doesn't open."""
    needed, capacity = u64(), 0
    while True:
        buffer = (u8 * max(capacity, 1))()
        with _native.Input(memoryview(data).cast("B")) as (address, size):
            status = write(address, size, buffer, capacity, needed)
        if needed.value == 0 or status == Status.OUT_OF_MEMORY:
            check(status)
        if needed.value <= capacity:
            return ctypes.string_at(buffer, needed.value)
        capacity = needed.value


def _is_compressed(data: Buffer, kind: Kind) -> bool:
    """Whether a recording has the feature COMPRESSED. One that doesn't open has none."""
    found = _structs.FeatureSet()
    with _native.Input(memoryview(data).cast("B")) as (address, size):
        _native.read_feature_set[kind.value](address, size, found)
    return bool(found.bits0 >> Feature.COMPRESSED & 1)


def decompress(data: Buffer) -> bytes:
    """A recording of `perf record -z` without compression, for `from_buffer`: each compressed record is replaced by the records in it."""
    return _written(_native.decompress, data)


def open(path: PathLike, *, kind: Optional[Kind] = None, unfinished: bool = False) -> Recording:
    """Maps a perf.data file or a stored pipe. The kind is that of its header unless it is given.

    With `unfinished` a file that perf didn't finish, or whose end is missing, has its whole records and its whole sections. A recording of
    `perf record -z` is read into memory without compression. A pipe with tracing data, which tracepoint events have, raises
    UnsupportedError: record these to a file."""
    data, mapping = map_file(path)
    kind = kind or _kind_of(memoryview(data))
    if unfinished and kind is Kind.FILE:
        finished = _written(_native.finish_recording, data)
        with contextlib.suppress(PerfDataError):
            finished = decompress(finished)
        if mapping is not None:
            mapping.close()
        return Recording(finished, Kind.FILE)
    if not _is_compressed(data, kind):
        return _checked(data, kind, mapping)
    decompressed = decompress(data)
    if mapping is not None:
        mapping.close()
    return _checked(decompressed, kind)


def _checked(data: Buffer, kind: Kind, mapping: Optional[mmap.mmap] = None) -> Recording:
    """A recording. A pipe with tracing data raises UnsupportedError: what follows them isn't records."""
    if kind is Kind.PIPE:
        with _native.Input(data) as (address, size):
            check(_native.check_tracing_data(address, size))
    return Recording(data, kind, mapping)


def from_buffer(data: Buffer, *, kind: Optional[Kind] = None) -> Recording:
    """Reads a recording from a buffer (bytes, bytearray, memoryview, mmap, numpy array), without a copy."""
    return _checked(data, kind or _kind_of(memoryview(data).cast("B")))
