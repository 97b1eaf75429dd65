"""`python -m dewikura records FILE | samples FILE | events FILE | loads JITDUMP` prints the records of a recording, its samples, the number
of samples of each event, or the name and the code size of each function of a jitdump. FILE may be `-` for a pipe on standard input."""

import sys
from collections import Counter
from typing import Iterator, List, Optional, Tuple

import dewikura


def open_recording(path: str) -> dewikura.Recording:
    return dewikura.from_buffer(sys.stdin.buffer.read()) if path == "-" else dewikura.open(path)


def record_line(record: dewikura.Record) -> str:
    """The line of a record, as perflist prints it."""
    timestamp = "-" if record.timestamp is None else record.timestamp
    attr_index = "-" if record.attr_index is None else record.attr_index
    return f"{record.offset} {record.round} {timestamp} {attr_index} {int(record.type)} {record.misc} {record.body_size}"


def records(path: str) -> Tuple[Iterator[str], Optional[Exception]]:
    with open_recording(path) as recording:
        found, error = recording.partial_records()
        return map(record_line, found), error


def sample_line(sample: dewikura.Sample, frames: dewikura.Frames) -> str:
    """The line of a sample, with the fields of perf script: PID/TID [CPU] SECONDS: PERIOD ADDRESS, and the addresses of its call chain."""
    seconds, nanoseconds = divmod(sample.timestamp, 10**9)
    addresses = "".join(f" {frame.address:x}" for frame in frames)
    return f"{sample.pid}/{sample.tid} [{sample.cpu:03}] {seconds}.{nanoseconds:09}: {sample.period} {sample.ip:x}{addresses}"


def samples(path: str) -> Tuple[Iterator[str], Optional[Exception]]:
    with open_recording(path) as recording:
        found, error = recording.partial_samples()
        return (sample_line(sample, found.frames_of(sample)) for sample in found), error


def events(path: str) -> Tuple[Iterator[str], Optional[Exception]]:
    with open_recording(path) as recording:
        counts = Counter(record.attr_index for record in recording.records if record.type == dewikura.RecordType.SAMPLE)
        return (f"{attr.name or 'event'}: {counts[attr.index]} samples" for attr in recording.attributes), None


def loads(path: str) -> Tuple[Iterator[str], Optional[Exception]]:
    with dewikura.open_jitdump(path) as jitdump:
        return iter([f"{load.name.decode('utf-8', 'replace')}: {len(load.code)} bytes" for load in jitdump.loads()]), None


def main(arguments: List[str]) -> int:
    """Runs a command and returns the exit status."""
    command = {"records": records, "samples": samples, "events": events, "loads": loads}.get(arguments[0]) if len(arguments) == 2 else None
    if command is None:
        print("usage: python -m dewikura records FILE | samples FILE | events FILE | loads JITDUMP", file=sys.stderr)
        return 1
    try:
        lines, error = command(arguments[1])
        for line in lines:
            print(line)
        if error is not None:
            raise error
    except (dewikura.PerfDataError, MemoryError, OSError) as error:
        print(f"dewikura: {error}", file=sys.stderr)
        return 2
    return 0


if __name__ == "__main__":
    sys.exit(main(sys.argv[1:]))
