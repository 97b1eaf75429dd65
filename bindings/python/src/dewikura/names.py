"""Texts of mangled names."""

import ctypes
from typing import Optional, Union

from . import _native
from .constants import Style
from .errors import check

# Enough for the texts of most names: a longer one takes a second call.
_CAPACITY = 4096


def demangle(name: Union[str, bytes], parameters: bool = False) -> Optional[str]:
    """The text of a mangled name of C++ or of Rust, or None for a name that isn't one.

    With `parameters`, the text of a C++ name has its result and its parameters, and suffixes of the compiler.
    """
    symbol = name.encode("utf-8", "surrogateescape") if isinstance(name, str) else bytes(name)
    style, text_size, capacity = Style.SIGNATURE if parameters else Style.NAME, ctypes.c_uint64(), _CAPACITY
    while True:
        text = ctypes.create_string_buffer(capacity)
        check(_native.demangle(symbol, len(symbol), style, text, capacity, text_size))
        if text_size.value <= capacity:
            break
        capacity = text_size.value
    return text.raw[:text_size.value].decode("utf-8", "surrogateescape") or None
