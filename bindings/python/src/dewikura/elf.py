"""Symbols of ELF files: programs, shared objects, and files with debugging information."""

import heapq
from ctypes import c_uint8 as u8, c_uint64 as u64
from typing import Any, Dict, Iterable, List, Optional, Tuple, Union

from . import _native
from ._arrays import StructSequence
from ._input import Buffer, PathLike, map_file
from ._structs import ElfSymbol
from .errors import check
from .names import demangle


class Symbols(StructSequence[ElfSymbol]):
    """The symbols of an ELF file, as a sequence over the array that the library filled. Starts are offsets in the file."""

    _struct = ElfSymbol

    def name(self, symbol: Union[ElfSymbol, int]) -> bytes:
        """Returns the name of a symbol, as the file has it."""
        if not isinstance(symbol, ElfSymbol):
            symbol = self[symbol]
        return bytes(self._source[symbol.name_offset:symbol.name_offset + symbol.name_size])

    def find(self, offsets: Iterable[int]) -> List[Optional[ElfSymbol]]:
        """Returns for each offset in the file the last symbol that contains it, or None. That is the one that perffold shows."""
        found = self.find_indices(offsets)
        return [None if index < 0 else self[index] for index in found]

    def find_indices(self, offsets: Iterable[int]) -> List[int]:
        """Returns for each offset in the file the index of the last symbol that contains it, or -1."""
        order = sorted(enumerate(offsets), key=lambda item: item[1])
        starts = sorted((symbol.start, index, symbol.start + symbol.size) for index, symbol in enumerate(self))
        found, at, open_symbols = [-1] * len(order), 0, []  # type: Tuple[List[int], int, List[Tuple[int, int]]]
        for position, offset in order:
            while at < len(starts) and starts[at][0] <= offset:
                heapq.heappush(open_symbols, (-starts[at][1], starts[at][2]))
                at += 1
            while open_symbols and open_symbols[0][1] <= offset:
                heapq.heappop(open_symbols)
            if open_symbols:
                found[position] = -open_symbols[0][0]
        return found

    def _columns(self, array: Any) -> Dict[str, Any]:
        columns = super()._columns(array)
        del columns["name_offset"], columns["name_size"]
        columns["name"] = [self.name(symbol).decode("utf-8", "backslashreplace") for symbol in self]
        return columns


def _open(file: Union[PathLike, Buffer]) -> memoryview:
    """The bytes of a file, or those of a buffer."""
    if isinstance(file, (bytes, bytearray, memoryview)):
        return memoryview(file).cast("B")
    return memoryview(map_file(file)[0]).cast("B")


def symbols(file: Union[PathLike, Buffer]) -> Symbols:
    """Returns the symbols of an ELF file: those of `.symtab` or, without one, of `.dynsym`.

    Raises `FormatError` for another file.
    """
    data, total, capacity = _open(file), u64(), 0
    while True:
        array = (ElfSymbol * max(capacity, 1))()
        with _native.Input(data) as (address, size):
            check(_native.read_elf_symbols(address, size, array, capacity, total))
        if total.value <= capacity:
            return Symbols(array, range(total.value), data)
        capacity = total.value


def build_id(file: Union[PathLike, Buffer]) -> Optional[bytes]:
    """Returns the build id of an ELF file, or None for a file without one. Raises `FormatError` for another file."""
    identifier, id_size = (u8 * 64)(), u64()
    with _native.Input(_open(file)) as (address, size):
        check(_native.elf_build_id(address, size, identifier, len(identifier), id_size))
    return bytes(identifier[:id_size.value]) or None


def symbol_text(name: bytes) -> str:
    """The text of the name of a symbol: demangled, without its version."""
    return demangle(name) or name.decode("utf-8", "backslashreplace")
