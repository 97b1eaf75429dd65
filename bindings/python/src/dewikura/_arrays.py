"""Sequences over arrays of structs."""

import ctypes
from typing import Any, Dict, Iterator, Sequence, Type, TypeVar, Union, overload

T = TypeVar("T", bound=ctypes.Structure)
S = TypeVar("S", bound="StructSequence[Any]")


def numpy_dtype(struct: Type[ctypes.Structure]) -> Any:
    """The dtype of a struct, with the header's names."""
    import numpy

    codes = {ctypes.c_uint64: "u8", ctypes.c_uint32: "u4", ctypes.c_uint16: "u2", ctypes.c_uint8: "u1", ctypes.c_int32: "i4",
             ctypes.c_uint8 * 20: "20u1"}
    members = [(name.lstrip("_"), codes[kind], getattr(struct, name).offset) for name, kind in struct._fields_ if kind in codes]
    names, formats, offsets = zip(*members)
    return numpy.dtype({"names": names, "formats": formats, "offsets": offsets, "itemsize": ctypes.sizeof(struct)})


def words_of(array: Any, offset: int) -> memoryview:
    """A view of the 64 bits at this offset in each struct of an array, as numbers."""
    words, size = memoryview(array).cast("B").cast("Q"), ctypes.sizeof(array._type_)
    return words[offset // 8::size // 8]


class StructSequence(Sequence[T]):
    """A sequence over an array of structs. A slice shares the array. `_source` is the input that the structs describe."""

    _struct: Type[T]

    def __init__(self, array: Any, indices: range, source: Any = None) -> None:
        self._array = array
        self._indices = indices
        self._source = source

    def __repr__(self) -> str:
        return f"<{type(self).__name__}: {len(self)}>"

    def __len__(self) -> int:
        return len(self._indices)

    @overload
    def __getitem__(self, index: int) -> T: ...

    @overload
    def __getitem__(self: S, index: slice) -> S: ...

    def __getitem__(self: S, index: Union[int, slice]) -> Union[T, S]:
        if isinstance(index, slice):
            return self._slice(self._indices[index])
        return self._array[self._indices[index]]

    def __iter__(self) -> Iterator[T]:
        return map(self._array.__getitem__, self._indices)

    def _slice(self: S, indices: range) -> S:
        return type(self)(self._array, indices, self._source)

    def __buffer__(self, flags: int) -> memoryview:
        return self.to_memoryview()

    def to_memoryview(self) -> memoryview:
        """Returns a view of the structs, without a copy."""
        start, stop, step = self._indices.start, self._indices.stop, self._indices.step
        return memoryview(self._array)[slice(start, stop if stop >= 0 else None, step)]

    def to_numpy(self) -> Any:
        """Returns a structured array over the structs, without a copy. Its fields have the header's names."""
        import numpy

        start, stop, step = self._indices.start, self._indices.stop, self._indices.step
        return numpy.frombuffer(self._array, dtype=numpy_dtype(self._struct))[slice(start, stop if stop >= 0 else None, step)]

    def to_pandas(self) -> Any:
        """Returns a data frame of pandas, a copy, with a column for each field of the struct, and with texts in place of their positions."""
        import pandas

        return pandas.DataFrame(self._columns(self.to_numpy()))

    def _columns(self, array: Any) -> Dict[str, Any]:
        """The columns of the data frame, by name."""
        return {name: array[name] for name in array.dtype.names if name != "reserved"}
