"""The exceptions of the package."""

from .constants import Status
from ._native import status_text


class DewikuraError(Exception):
    """The base of the package's errors. That of a profile has the text that perffold prints."""


class PerfDataError(DewikuraError):
    """The input has an error.

    `status` is the status of the call, `text` its text, and `record_count` the number of records before the error.
    """

    def __init__(self, status: int, record_count: int = 0) -> None:
        try:
            self.status: int = Status(status)
        except ValueError:
            self.status = status
        self.text = status_text(status)
        self.record_count = record_count
        super().__init__(self.text if record_count == 0 else f"{self.text} after {record_count} records")


class FormatError(PerfDataError, ValueError):
    """The input is malformed."""


class TruncatedError(FormatError):
    """The input is truncated."""


class UnsupportedError(PerfDataError):
    """The input uses a feature that isn't supported."""


_CLASSES = {
    Status.TRUNCATED: TruncatedError,
    Status.TRUNCATED_RECORD: TruncatedError,
    Status.JIT_TRUNCATED_HEADER: TruncatedError,
    Status.COMPRESSED: UnsupportedError,
    Status.TRACING_DATA: UnsupportedError,
    Status.OTHER: PerfDataError,
}


def error_of(status: int, record_count: int = 0) -> Exception:
    """Returns the exception for a status other than OK."""
    if status == Status.OUT_OF_MEMORY:
        return MemoryError(status_text(status))
    return _CLASSES.get(status, FormatError)(status, record_count)


def check(status: int, record_count: int = 0) -> None:
    """Raises the exception for a status, unless it is OK."""
    if status != Status.OK:
        raise error_of(status, record_count)
