"""Loads the library and declares its calls. DEWIKURA_LIBRARY names another shared object than the one beside the package."""

import ctypes
import os
import pathlib
from ctypes import POINTER

from . import _structs
from ._declarations import declare
from .constants import VERSION


def _load() -> ctypes.CDLL:
    path = os.environ.get("DEWIKURA_LIBRARY") or str(pathlib.Path(__file__).resolve().parent / "libdewikura.so")
    try:
        return ctypes.CDLL(path)
    except OSError as error:
        raise ImportError(f"{error}: build it with `rt lib` in crates/dewikura, then `pip install ./bindings/python`") from error


_library = _load()
declare(_library)


def _of_kinds(name: str) -> dict:
    """The exports for a file and for a pipe."""
    return {kind: getattr(_library, f"dewikura_read_{kind}_{name}") for kind in ("file", "pipe")}


# The structs of entries, with the names of the exports that read them: of a file from a cursor on, and of a whole pipe.
_ENTRIES = {kind: _of_kinds(name) for kind, name in ((_structs.Task, "tasks"), (_structs.Mapping, "mappings"), (_structs.Counter, "counters"))}

input_kind = _library.dewikura_input_kind
is_big_endian = _library.dewikura_is_big_endian
read_file_records = _library.dewikura_read_file_records
read_pipe_records = _library.dewikura_read_pipe_records
read_file_samples = _library.dewikura_read_file_samples
read_pipe_samples = _library.dewikura_read_pipe_samples
read_file_entries = {kind: exports["file"] for kind, exports in _ENTRIES.items()}
read_pipe_entries = {kind: exports["pipe"] for kind, exports in _ENTRIES.items()}
read_stacks = _of_kinds("stacks")
read_sample_details = _library.dewikura_read_sample_details
sort_records = _library.dewikura_sort_records
read_attrs = _of_kinds("attrs")
read_feature_set = _of_kinds("feature_set")
read_feature = _of_kinds("feature")
finish_recording = _library.dewikura_finish_recording
decompress = _library.dewikura_decompress
read_build_id = _library.dewikura_read_build_id
read_string = _library.dewikura_read_string
read_meta_info = _library.dewikura_read_meta_info
read_symbol_tables = _library.dewikura_read_symbol_tables
read_jit_header = _library.dewikura_read_jit_header
read_jit_records = _library.dewikura_read_jit_records
read_jit_load = _library.dewikura_read_jit_load
read_jit_move = _library.dewikura_read_jit_move
read_jit_unwinding = _library.dewikura_read_jit_unwinding
read_jit_debug_info = _library.dewikura_read_jit_debug_info
demangle = _library.dewikura_demangle
read_elf_symbols = _library.dewikura_read_elf_symbols
elf_build_id = _library.dewikura_elf_build_id
check_tracing_data = _library.dewikura_check_tracing_data
read_opening = _library.dewikura_read_opening
read_chunk_records = _library.dewikura_read_chunk_records


def library_version() -> "tuple[int, int, int]":
    """Returns the version of the loaded library."""
    number = _library.dewikura_version()
    return number // 10000, number // 100 % 100, number % 100


if library_version()[:2] != VERSION[:2]:
    raise ImportError(f"the library has version {library_version()}, the package {VERSION}")


def status_text(status: int) -> str:
    """Returns the text of a status."""
    buffer = ctypes.create_string_buffer(128)
    _library.dewikura_status_text(status, buffer, len(buffer))
    return buffer.value.decode("utf-8")


class _PyBuffer(ctypes.Structure):
    _fields_ = [("buf", ctypes.c_void_p), ("obj", ctypes.py_object), ("len", ctypes.c_ssize_t), ("itemsize", ctypes.c_ssize_t),
                ("readonly", ctypes.c_int), ("ndim", ctypes.c_int), ("format", ctypes.c_char_p), ("shape", ctypes.c_void_p),
                ("strides", ctypes.c_void_p), ("suboffsets", ctypes.c_void_p), ("internal", ctypes.c_void_p)]


_get_buffer = ctypes.pythonapi.PyObject_GetBuffer
_get_buffer.argtypes = [ctypes.py_object, POINTER(_PyBuffer), ctypes.c_int]
_get_buffer.restype = ctypes.c_int
_release_buffer = ctypes.pythonapi.PyBuffer_Release
_release_buffer.argtypes = [POINTER(_PyBuffer)]
_release_buffer.restype = None
_no_byte = ctypes.c_uint8()


class Input:
    """The address and the size of a buffer, which is neither copied nor resized while the context lasts."""

    def __init__(self, data) -> None:
        self._data = data
        self._buffer = _PyBuffer()

    def __enter__(self) -> "tuple[int, int]":
        _get_buffer(self._data, ctypes.byref(self._buffer), 0)
        # An export takes no NULL, also for an empty input.
        return self._buffer.buf or ctypes.addressof(_no_byte), self._buffer.len

    def __exit__(self, *_) -> None:
        _release_buffer(ctypes.byref(self._buffer))
