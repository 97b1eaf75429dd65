"""Profiles: the functions, stacks and samples of a recording, named and unwound as perffold does it."""

from __future__ import annotations

import dataclasses
import html
import importlib.metadata
import json
import os
import pathlib
import re
import shutil
import subprocess
import sysconfig
import threading
from typing import IO, TYPE_CHECKING, Any, Callable, Dict, Iterator, List, NamedTuple, Optional, Sequence, Set, Tuple, Union

from .errors import DewikuraError

if TYPE_CHECKING:
    import numpy
    import pandas
    from numpy.typing import NDArray

    Texts = NDArray[numpy.object_]
    Numbers = NDArray[numpy.int64]

# The version of the format that perffold writes (docs/users/PROFILE_JSON.md).
_VERSION = 1

# A line of progress: the bytes that were read, the size if it is known, and the number of records.
_PROGRESS = re.compile(rb"\r(\d+)(?: of (\d+))? bytes, (\d+) records")

Progress = Callable[[int, Optional[int], int], None]


class FunctionCount(NamedTuple):
    """The samples of a function."""

    function: str
    # Its source file, or an empty text.
    file: str
    # The samples in which it is the innermost function, and those in which it is in the stack.
    self: int
    total: int
    # The same as shares of all samples, from 0 to 1.
    self_share: float
    total_share: float


class CallerCount(NamedTuple):
    """The samples in which a function calls another one, or is called by it."""

    function: str
    samples: int
    # The share of the samples that have the other function, from 0 to 1.
    share: float


class Difference(NamedTuple):
    """The samples of a function in two profiles."""

    function: str
    old: int
    new: int
    old_share: float
    new_share: float
    # The difference of the shares, from -1 to 1.
    difference: float


@dataclasses.dataclass(frozen=True)
class Events:
    """The events of the recording."""

    name: Texts
    unit: Texts


@dataclasses.dataclass(frozen=True)
class Threads:
    """Threads by name; `pid` and `tid` are -1 unless `threads_by` says that they are told apart."""

    name: Texts
    pid: Numbers
    tid: Numbers


@dataclasses.dataclass(frozen=True)
class Mappings:
    """Mapped files."""

    start: NDArray[numpy.uint64]
    end: NDArray[numpy.uint64]
    offset: NDArray[numpy.uint64]
    path: Texts
    build_id: Texts


@dataclasses.dataclass(frozen=True)
class Functions:
    """Functions, with the paths of their source files, or empty texts."""

    name: Texts
    file: Texts


@dataclasses.dataclass(frozen=True)
class Locations:
    """Where frames are: `mapping` is -1 for one outside of mappings. `lines` has the functions and source lines, the innermost first."""

    mapping: Numbers
    address: NDArray[numpy.uint64]
    lines: List[List[Tuple[int, int]]]


@dataclasses.dataclass(frozen=True)
class Stacks:
    """Stacks: `parent` is the stack of the callers, or -1, and `location` that of the innermost frame."""

    parent: Numbers
    location: Numbers


@dataclasses.dataclass(frozen=True)
class Samples:
    """The samples in order: `time` is in nanoseconds by perf's clock, or -1, and `stack` -1 for a sample without frames."""

    time: Numbers
    thread: Numbers
    stack: Numbers
    event: Numbers
    weight: Numbers


def find_program(name: str) -> str:
    """The path of one of the programs: in the folder that DEWIKURA_PROGRAMS names, of this package's wheel, or on PATH."""
    folder = os.environ.get("DEWIKURA_PROGRAMS")
    folders = [pathlib.Path(folder)] if folder else list(_program_folders())
    for folder_path in folders:
        if os.access(folder_path / name, os.X_OK):
            return str(folder_path / name)
    found = shutil.which(name)
    if not found:
        raise DewikuraError(f"{name} isn't installed: neither beside this package nor on PATH")
    return found


def _program_folders() -> Iterator[pathlib.Path]:
    package = pathlib.Path(__file__).resolve().parent
    try:
        files = importlib.metadata.files("dewikura") or []
    except importlib.metadata.PackageNotFoundError:
        files = []
    for file in files:
        if file.name == "perffold":
            yield pathlib.Path(str(file.locate())).parent
    yield package.parent / "bin"
    yield pathlib.Path(sysconfig.get_path("scripts"))


def _options(values: Dict[str, Any]) -> List[str]:
    """The options of perffold for arguments: a flag for True, nothing for None and False."""
    options: List[str] = []
    for name, value in values.items():
        if value is True:
            options.append(f"--{name}")
        elif value is not None and value is not False:
            texts = [str(value)] if isinstance(value, (str, int, os.PathLike)) else [str(one) for one in value]
            options.append(f"--{name}={','.join(texts)}")
    return options


def _read_messages(stream: IO[bytes], progress: Optional[Progress], messages: List[bytes]) -> None:
    """Reads standard error to its end, and calls `progress` for lines of progress."""
    rest = b""
    while True:
        try:
            data = os.read(stream.fileno(), 4096)
        except OSError:  # a terminal whose other end is closed
            data = b""
        if not data:
            break
        rest += data
        for found in _PROGRESS.finditer(rest):
            if progress:
                progress(int(found[1]), int(found[2]) if found[2] else None, int(found[3]))
        last = max((found.end() for found in _PROGRESS.finditer(rest)), default=0)
        messages.append(_PROGRESS.sub(b"", rest[:last]))
        rest = rest[last:]
    messages.append(rest)


def _run(arguments: Sequence[str], progress: Optional[Progress]) -> Tuple[int, bytes, str]:
    """Runs perffold. Returns its exit status, its output and its messages."""
    command = [find_program("perffold"), *arguments]
    if progress:
        # perffold writes progress to a terminal alone.
        ours, theirs = os.openpty()
    else:
        ours, theirs = os.pipe()
    messages: List[bytes] = []
    with os.fdopen(ours, "rb", buffering=0) as stream:
        with subprocess.Popen(command, stdin=subprocess.DEVNULL, stdout=subprocess.PIPE, stderr=theirs) as process:
            os.close(theirs)
            reader = threading.Thread(target=_read_messages, args=(stream, progress, messages))
            reader.start()
            assert process.stdout is not None
            output = process.stdout.read()
        reader.join()
    text = b"".join(messages).replace(b"\r", b"").decode("utf-8", "replace").strip()
    return process.returncode, output, text


def _numbers(column: Sequence[Optional[int]]) -> Numbers:
    """The numbers of a column, -1 in place of null."""
    import numpy

    return numpy.array([-1 if number is None else number for number in column], dtype=numpy.int64)


def _addresses(column: Sequence[str]) -> NDArray[numpy.uint64]:
    import numpy

    return numpy.array([int(address, 16) for address in column], dtype=numpy.uint64)


def _texts(column: Sequence[Optional[str]]) -> Texts:
    import numpy

    texts = numpy.empty(len(column), dtype=object)
    texts[:] = column
    return texts


class Profile:
    """The tables of a profile, as columns of numpy. Rows are named by their indices."""

    def __init__(self, document: Dict[str, Any], arguments: Sequence[str] = (), messages: str = "", error: Optional[str] = None) -> None:
        meta = document["meta"]
        if meta["version"] != _VERSION:
            raise DewikuraError(f"perffold writes version {meta['version']} of the format, this package reads {_VERSION}")
        self._arguments = list(arguments)
        #: What perffold says on standard error: which events aren't selected, which files are missing.
        self.messages = messages
        #: The error after these samples, or None.
        self.error = error
        self.title: str = meta["title"]
        self.heading: str = meta["heading"]
        self.command_line: str = meta["command_line"]
        #: Whether `top`, `callers` and differences count samples or periods.
        self.weight: str = meta["weight"]
        self.events = Events(**{name: _texts(column) for name, column in document["events"].items() if name in ("name", "unit")})
        threads, mappings, locations = (document[name] for name in ("threads", "mappings", "locations"))
        self.threads = Threads(_texts(threads["name"]), _numbers(threads["pid"]), _numbers(threads["tid"]))
        self.mappings = Mappings(_addresses(mappings["start"]), _addresses(mappings["end"]), _addresses(mappings["offset"]),
                                 _texts(mappings["path"]), _texts(mappings["build_id"]))
        self.functions = Functions(_texts(document["functions"]["name"]), _texts(document["functions"]["file"]))
        self.locations = Locations(_numbers(locations["mapping"]), _addresses(locations["address"]),
                                   [[(line["function"], line["line"]) for line in lines] for lines in locations["lines"]])
        self.stacks = Stacks(_numbers(document["stacks"]["parent"]), _numbers(document["stacks"]["location"]))
        samples = document["samples"]
        self.samples = Samples(*(_numbers(samples[name]) for name in ("time", "thread", "stack", "event", "weight")))

    def __repr__(self) -> str:
        return f"<Profile: {self.heading}>"

    def __len__(self) -> int:
        """The number of samples."""
        return len(self.samples.stack)

    def frames(self, stack: int) -> List[int]:
        """The functions of a stack, the innermost first, by their indices. Inlined functions are before those that they are in."""
        functions: List[int] = []
        parents, locations, lines = self.stacks.parent, self.stacks.location, self.locations.lines
        while stack >= 0:
            functions.extend(function for function, _ in lines[locations[stack]])
            stack = int(parents[stack])
        return functions

    def names(self, stack: int) -> List[str]:
        """The names of the functions of a stack, the innermost first."""
        return [self.functions.name[function] for function in self.frames(stack)]

    def _counts(self) -> Numbers:
        """What each sample counts."""
        import numpy

        return self.samples.weight if self.weight == "period" else numpy.ones(len(self), dtype=numpy.int64)

    def _stack_counts(self) -> List[Tuple[int, int]]:
        """The stacks of samples, each once, and what its samples count. -1 is that of samples without frames."""
        import numpy

        stacks, indices = numpy.unique(self.samples.stack, return_inverse=True)
        sums = numpy.zeros(len(stacks), dtype=numpy.int64)
        numpy.add.at(sums, indices, self._counts())
        return list(zip(stacks.tolist(), sums.tolist()))

    def total(self) -> int:
        """What all samples count: their number, or the sum of their periods."""
        return int(self._counts().sum())

    def _function_counts(self) -> Tuple[Dict[str, int], Dict[str, int]]:
        """What the samples of each name of a function count: where it is the innermost one, and where it is in the stack."""
        own: Dict[str, int] = {}
        total: Dict[str, int] = {}
        for stack, count in self._stack_counts():
            names = self.names(stack)
            if names:
                own[names[0]] = own.get(names[0], 0) + count
            for name in set(names):
                total[name] = total.get(name, 0) + count
        return own, total

    def top(self, count: Optional[int] = 10, by: str = "self") -> List[FunctionCount]:
        """The functions with the most samples of their own, or with `by="total"` in whose calls the most samples are; all with None."""
        if by not in ("self", "total"):
            raise ValueError("by is self or total")
        own, total = self._function_counts()
        files = dict(zip(reversed(self.functions.name.tolist()), reversed(self.functions.file.tolist())))
        everything = self.total() or 1
        rows = [FunctionCount(name, files.get(name, ""), own.get(name, 0), number, own.get(name, 0) / everything, number / everything)
                for name, number in total.items()]
        rows.sort(key=lambda row: (-row.self, -row.total, row.function) if by == "self" else (-row.total, -row.self, row.function))
        return rows[:count]

    def _neighbours(self, function: str, step: int) -> List[CallerCount]:
        """The functions that call a function (1) or that it calls (-1), with what the samples count in which they do."""
        counts: Dict[str, int] = {}
        everything = 0
        for stack, count in self._stack_counts():
            names = self.names(stack)
            places = [index for index, name in enumerate(names) if name == function]
            if not places:
                continue
            everything += count
            others: Set[str] = {names[index + step] for index in places if 0 <= index + step < len(names)}
            for name in others:
                counts[name] = counts.get(name, 0) + count
        rows = [CallerCount(name, count, count / (everything or 1)) for name, count in counts.items()]
        return sorted(rows, key=lambda row: (-row.samples, row.function))

    def callers(self, function: str) -> List[CallerCount]:
        """The functions that call a function, most samples first. A sample counts once for each caller in its stack."""
        return self._neighbours(function, 1)

    def callees(self, function: str) -> List[CallerCount]:
        """The functions that a function calls, most samples first. A sample counts once for each callee in its stack."""
        return self._neighbours(function, -1)

    def to_pandas(self) -> pandas.DataFrame:
        """A data frame with a row for each sample: time, names of thread, event and innermost function with its file, stack and weight."""
        import numpy
        import pandas

        def texts_at(texts: Texts, indices: Numbers) -> Any:
            return _texts([*texts, None])[indices]

        stacks = self.samples.stack
        innermost = numpy.array([lines[0][0] for lines in self.locations.lines] + [-1], dtype=numpy.int64)
        functions = innermost[numpy.append(self.stacks.location, -1)[stacks]]
        columns: Dict[str, Any] = {
            "time": pandas.array(self.samples.time, dtype="Int64"),
            "thread": texts_at(self.threads.name, self.samples.thread),
            "pid": self.threads.pid[self.samples.thread],
            "tid": self.threads.tid[self.samples.thread],
            "event": texts_at(self.events.name, self.samples.event),
            "function": texts_at(self.functions.name, functions),
            "file": texts_at(self.functions.file, functions),
            "stack": stacks,
            "weight": self.samples.weight,
        }
        columns["time"][self.samples.time < 0] = pandas.NA
        return pandas.DataFrame(columns)

    def _written(self, format: str) -> str:
        status, output, messages = _run([f"--format={format}", *self._arguments], None)
        if status != 0 and not output:
            raise DewikuraError(messages)
        return output.decode("utf-8", "replace")

    def flame_graph(self) -> str:
        """The flame graph of the same recording and selection, an SVG file for a browser."""
        return self._written("svg")

    def html(self) -> str:
        """The page of the same recording and selection."""
        return self._written("html")

    def _repr_html_(self) -> str:
        return f'<iframe sandbox="allow-scripts" style="width:100%;height:40em;border:0" srcdoc="{html.escape(self.html())}"></iframe>'

    def __sub__(self, old: Profile) -> Comparison:
        """What differs from another profile."""
        return Comparison(old, self)


class Comparison:
    """Two profiles: how many samples of their own functions have in each, as shares of all samples of the profile."""

    def __init__(self, old: Profile, new: Profile) -> None:
        self.old, self.new = old, new
        (old_counts, old_totals), (new_counts, new_totals) = old._function_counts(), new._function_counts()
        old_all, new_all = old.total() or 1, new.total() or 1
        rows = []
        for name in {**old_totals, **new_totals}:
            before, after = old_counts.get(name, 0), new_counts.get(name, 0)
            if before or after:
                shares = before / old_all, after / new_all
                rows.append(Difference(name, before, after, *shares, shares[1] - shares[0]))
        self._rows = sorted(rows, key=lambda row: (-abs(row.difference), row.function))

    def __repr__(self) -> str:
        return f"<Comparison: {self.old.heading} and {self.new.heading}>"

    def top(self, count: Optional[int] = 10) -> List[Difference]:
        """The functions whose shares differ most; all with None."""
        return self._rows[:count]

    def to_pandas(self) -> pandas.DataFrame:
        """A data frame with a row for each function."""
        import pandas

        return pandas.DataFrame(self._rows, columns=list(Difference._fields))

    def _repr_html_(self) -> str:
        rows = "".join(f"<tr><td>{row.old_share:.2%}<td>{row.new_share:.2%}<td>{100 * row.difference:+.2f}<td>{html.escape(row.function)}"
                       for row in self.top(30))
        return f"<table><tr><th>old<th>new<th>points<th>function{rows}</table>"


def profile(path: Union[str, os.PathLike[str]] = "perf.data", *, unwind: bool = True, inline: bool = True, demangle: bool = True,
            parameters: bool = False, symbols: bool = True, weight: str = "samples", threads_by: str = "name",
            event: Union[None, str, Sequence[str]] = None, all_events: bool = False, comm: Union[None, str, Sequence[str]] = None,
            pid: Union[None, int, Sequence[int]] = None, tid: Union[None, int, Sequence[int]] = None, cpu: Union[None, int, str] = None,
            time: Optional[str] = None, focus: Optional[str] = None, ignore: Optional[str] = None,
            symfs: Union[None, str, os.PathLike[str]] = None, debug_dir: Union[None, str, os.PathLike[str]] = None,
            kallsyms: Union[None, str, os.PathLike[str]] = None, maps: Union[None, str, os.PathLike[str]] = None,
            vdso: Union[None, str, os.PathLike[str]] = None, partial: bool = False, progress: Optional[Progress] = None) -> Profile:
    """Profiles a recording by perffold, whose options these are (`man perffold`). Copies of stacks are unwound, unless `unwind` is false.

    `weight` is `samples` or `period`, and `threads_by` is `name`, `pid` or `tid`: by what threads are told apart. With `partial`, the samples before
    an error are a profile, whose `messages` say the error. `progress` is called about once a second with the number of bytes that were read, the size
    of the input or None, and the number of records. Raises DewikuraError with perffold's text.
    """
    if threads_by not in ("name", "pid", "tid"):
        raise ValueError("threads_by is name, pid or tid")
    values = {
        "no-unwind": not unwind, "no-inline": not inline, "no-demangle": not demangle, "parameters": parameters, "no-symbols": not symbols,
        "weight": weight, "by-pid": threads_by == "pid", "by-tid": threads_by == "tid", "event": event, "all-events": all_events, "comm": comm,
        "pid": pid, "tid": tid, "cpu": cpu, "time": time, "focus": focus, "ignore": ignore, "symfs": symfs, "debug-dir": debug_dir,
        "kallsyms": kallsyms, "maps": maps, "vdso": vdso,
    }
    arguments = [*_options(values), "--", os.fspath(path)]
    status, output, messages = _run(["--format=json", *arguments], progress)
    if status != 0 and not (partial and output):
        raise DewikuraError(messages or f"perffold ends with status {status}")
    return Profile(json.loads(output), arguments, messages, None if status == 0 else messages.rpartition("\n")[2])
