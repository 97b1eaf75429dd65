"""Recordings by pages of records, without having all bytes in memory: pipes and files that are still written, and files of any size."""

import builtins
import io
import os
import time
from ctypes import c_uint64 as u64
from typing import Any, Callable, ContextManager, Iterator, List, Literal, Optional, Union

from . import _native, _structs
from ._input import PathLike
from .constants import InputKind, RecordType, Status
from .errors import check, error_of
from .recording import Kind, Recording, Records, Source, _attr_name, _read_attrs, _written, input_kind, open as open_recording
from ._structs import Record

# The number of bytes that are read at once, and the sizes of a record header, of an AUXTRACE record before its aux data, and of a file's header.
_PIECE = 1 << 20
_HEADER_SIZE = 8
_AUXTRACE_SIZE = 48
_FILE_HEADER_SIZE = 104


class _PageSource:
    """The bytes of a page, and the names of the events so far."""

    def __init__(self, data: bytes, names: List[Optional[str]]) -> None:
        self.data, self.names = memoryview(data), names

    def event_names(self, indices: Any) -> Any:
        """The names of the attributes with these indices, as a categorical."""
        import numpy
        import pandas

        return pandas.Categorical(numpy.array([*self.names, None], dtype=object)[indices])


class Page(Records):
    """Records that follow one another. Their `offset` counts from the first record of the recording, their `body_offset` from the start of
    the bytes of the page."""

    def body(self, record: Union[Record, int]) -> memoryview:
        """Returns a view of the bytes of a record's body, aux data included."""
        if not isinstance(record, Record):
            record = self[record]
        return self._source.data[record.body_offset:record.body_offset + record.body_size]


class _Attributes:
    """The attributes so far, as the library takes them, and the names of their events."""

    def __init__(self, recording: Recording) -> None:
        self.attrs, names, self.ids, self.count, status = _read_attrs(Source(recording._data, recording.kind))
        check(status)
        self.names = [_attr_name(self.attrs[index], names, "backslashreplace") for index in range(self.count)]


class Follower(Iterator[Page], ContextManager["Follower"]):
    """The pages of a recording, in order. A page comes as soon as there is a complete record."""

    def __init__(self, read: Callable[[int], Optional[bytes]], path: Optional[PathLike], page_size: int, wait: Optional[float],
                 close: Callable[[], None]) -> None:
        self._read, self._path, self._wait, self._close = read, path, wait, close
        self._pending = bytearray()
        self._opening: Optional[_structs.Opening] = None
        self._metadata: Optional[Recording] = None
        self._late = b""
        self._records = (Record * page_size)()
        self._cursor = _structs.Cursor()
        self._record_count = 0
        self._pages = self._read_pages()

    def __iter__(self) -> "Follower":
        return self

    def __next__(self) -> Page:
        return next(self._pages)

    def __exit__(self, *_: object) -> None:
        self.close()

    def close(self) -> None:
        """Closes the file that `follow` opened. No page comes after it."""
        self._pages.close()
        self._close()

    @property
    def kind(self) -> Kind:
        """The form of the recording."""
        self._open()
        return Kind.PIPE if self._opening.kind == InputKind.PIPE else Kind.FILE

    @property
    def byteorder(self) -> Literal["little", "big"]:
        """The byte order of the recording, "little" or "big"."""
        self._open()
        return "big" if self._opening.is_big_endian else "little"

    @property
    def metadata(self) -> Recording:
        """A recording without records, which has the attributes and features so far. Those of a file that perf is still writing are its
        attributes alone."""
        self._open()
        if self._metadata is None:
            self._metadata = Recording(bytes(self._start) + self._late, Kind.PIPE)
        return self._metadata

    def _fill(self) -> bool:
        """Reads more bytes; False at the end."""
        while True:
            piece = self._read(_PIECE)
            if piece:
                self._pending += piece
                return True
            if not self._is_growing():
                return False
            self._look_again()

    def _is_growing(self) -> bool:
        """Whether the input is a file at a path that perf hasn't finished, and `follow` waits for it."""
        is_file = self._opening is None or self._opening.kind == InputKind.FILE and self._opening.records_size == 0
        return self._wait is not None and self._path is not None and is_file

    def _look_again(self) -> None:
        """Waits, and reads the header again, which has the size of the records once perf has finished the file."""
        time.sleep(self._wait)
        if self._opening is not None:
            with builtins.open(self._path, "rb") as file:
                found = _read_opening(file.read(_FILE_HEADER_SIZE))
            if isinstance(found, _structs.Opening):
                self._opening.records_size = found.records_size

    def _open(self) -> None:
        """Reads the opening, unless it is read."""
        if self._opening is not None:
            return
        found = _read_opening(self._pending)
        while found == Status.MORE:
            if not self._fill():
                self._open_without_records()
                return
            found = _read_opening(self._pending)
        if not isinstance(found, _structs.Opening):
            raise error_of(found)
        if found.kind == InputKind.FILE:
            while len(self._pending) < found.records_offset and self._fill():
                pass
        self._start = bytes(self._pending[:found.records_offset])
        del self._pending[:found.records_offset]
        self._opening = found
        if found.kind == InputKind.FILE:
            self._open_file(found)

    def _open_without_records(self) -> None:
        """Opens a pipe that ends in its opening or has no records, as `dewikura.open` does."""
        self._start = bytes(self._pending)
        if input_kind(self._start) == InputKind.FILE:
            raise error_of(Status.TRUNCATED)
        _Attributes(Recording(self._start, Kind.PIPE))
        self._opening = _structs.Opening(records_offset=len(self._start), kind=InputKind.PIPE, is_big_endian=self._start.startswith(b"2"))
        self._pending.clear()

    def _open_file(self, opening: _structs.Opening) -> None:
        """The metadata of a file: those at its end, if it can be mapped and is finished, otherwise those before its records."""
        if self._path is not None and opening.records_size:
            self._metadata = open_recording(self._path, kind=Kind.FILE)
        else:
            self._metadata = Recording(_written(_native.finish_recording, self._start), Kind.FILE)

    def _limit(self) -> int:
        """How many of the pending bytes are those of records."""
        size = self._opening.records_size
        return min(len(self._pending), size - self._cursor.offset) if size > self._cursor.offset else 0 if size else len(self._pending)

    def _read_page(self, attributes: _Attributes) -> "tuple[int, Optional[Page]]":
        """The status of the next page, and the page, unless it has no records."""
        count, consumed = u64(), u64()
        with _native.Input(self._pending) as (address, _):
            status = _native.read_chunk_records(address, self._limit(), self._opening.is_big_endian, attributes.attrs, attributes.count,
                                                attributes.ids, len(attributes.ids), self._cursor, self._records, len(self._records),
                                                count, consumed)
        data = bytes(self._pending[:consumed.value])
        del self._pending[:consumed.value]
        self._record_count += count.value
        if count.value == 0:
            return status, None
        array = (Record * count.value).from_buffer_copy(self._records)
        return status, Page(array, range(count.value), _PageSource(data, attributes.names))

    def _add_metadata(self, page: Page) -> bool:
        """Adds the metadata records of a page of a pipe. Whether there was an attribute."""
        late = [record for record in page if record._type in (RecordType.HEADER_ATTR, RecordType.HEADER_FEATURE)]
        for record in late:
            self._late += bytes(page._source.data[record.body_offset - _HEADER_SIZE:record.body_offset + record.body_size])
        if late:
            self._metadata = None
        return bool(late)

    def _read_pages(self) -> Iterator[Page]:
        self._open()
        attributes = _Attributes(self.metadata)
        while True:
            status, page = self._read_page(attributes)
            if page is not None:
                if self._opening.kind == InputKind.PIPE and self._add_metadata(page):
                    attributes = _Attributes(self.metadata)
                yield page
                if self._opening.kind == InputKind.PIPE and any(record._type == RecordType.HEADER_TRACING_DATA for record in page):
                    raise error_of(Status.TRACING_DATA, self._record_count)
            if status == Status.BAD_RECORD_SIZE and self._is_growing():
                # These may be the first bytes after the records, which perf leaves 0 until it writes the header.
                self._look_again()
                continue
            check(status, self._record_count)
            if page is None and not (self._has_more() and self._fill()):
                break
        self._check_end()

    def _has_more(self) -> bool:
        """Whether there may be more records than those in the pending bytes."""
        size = self._opening.records_size
        return size == 0 or self._cursor.offset + len(self._pending) < size

    def _check_end(self) -> None:
        """Raises the error of a finished file that ends in a record or before its last one, and of an input that ends in aux data."""
        size = self._opening.records_size
        if size and self._cursor.offset < size:
            raise error_of(Status.TRUNCATED_RECORD if self._limit() >= _HEADER_SIZE else Status.TRUNCATED, self._record_count)
        is_aux = int.from_bytes(self._pending[:4], self.byteorder) == RecordType.AUXTRACE
        if size == 0 and is_aux and len(self._pending) >= _AUXTRACE_SIZE:
            raise error_of(Status.TRUNCATED_RECORD, self._record_count)


def _read_opening(start: Union[bytes, bytearray]) -> Union[int, _structs.Opening]:
    """Where the records are, or the status."""
    opening = _structs.Opening()
    with _native.Input(start) as (address, size):
        status = _native.read_opening(address, size, opening)
    return opening if status == Status.OK else status


def follow(source: Union[PathLike, io.IOBase, Any], *, page_size: int = 4096, wait: Optional[float] = None) -> Follower:
    """Reads a recording by pages of at most `page_size` records, without having it in memory.

    `source` is a path, or a file object in binary mode, such as `sys.stdin.buffer` for `perf record -o - ..`. A page comes as soon as its
    bytes are there. The attributes of a file object with a file are those before its records, without names. With `wait` the end of a file at a path is looked at again after as many seconds, until perf has finished the file.
    The errors are those of `Recording.records`, after the pages before them. A pipe that ends in a record has no error."""
    if isinstance(source, (str, bytes, os.PathLike)):
        file = builtins.open(source, "rb", buffering=0)
        return Follower(file.read, source, page_size, wait, file.close)
    read = getattr(source, "read1", source.read)
    return Follower(read, None, page_size, wait, lambda: None)
