"""Inputs in memory: mapped files, and buffers of the caller."""

import builtins
import contextlib
import mmap
import os
import sys
from typing import Any, ContextManager, Optional, Tuple, TypeVar, Union

if sys.version_info >= (3, 12):
    from collections.abc import Buffer
else:
    Buffer = Any

PathLike = Union[str, "os.PathLike[str]"]
T = TypeVar("T")


def map_file(path: PathLike) -> Tuple[Buffer, Optional[mmap.mmap]]:
    """Maps a file privately. An empty file has no mapping."""
    with builtins.open(path, "rb") as file:
        if os.fstat(file.fileno()).st_size == 0:
            return b"", None
        mapping = mmap.mmap(file.fileno(), 0, flags=mmap.MAP_PRIVATE, prot=mmap.PROT_READ)
        return mapping, mapping


class OpenInput(ContextManager[T]):
    """An input in memory, and the mapping that it is in if it is a file. `_kind_name` says what it is in messages."""

    _kind_name: str

    def __init__(self, data: Buffer, mapping: Optional[mmap.mmap]) -> None:
        self._set(data, mapping)

    def _set(self, data: Buffer, mapping: Optional[mmap.mmap]) -> None:
        self._view: Optional[memoryview] = memoryview(data).cast("B")
        self._mapping = mapping

    def __exit__(self, *_: object) -> None:
        self.close()

    def close(self) -> None:
        """Unmaps the file. A view of its bytes keeps the mapping until it is released. Later calls raise ValueError."""
        if self._view is not None:
            self._view.release()
            self._view = None
        if self._mapping is not None:
            with contextlib.suppress(BufferError):
                self._mapping.close()
            self._mapping = None

    @property
    def _data(self) -> memoryview:
        if self._view is None:
            raise ValueError(f"the {self._kind_name} is closed")
        return self._view
