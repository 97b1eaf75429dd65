"""Bytes of recordings, for the scripts that make some. Formats: `perf.data-file-format.txt` and `perf_event.h` of Linux. The byte order is "little" or
"big"."""
import struct

MAGIC = {"little": b"PERFILE2", "big": b"2ELIFREP"}
FORMAT = {"little": "<", "big": ">"}
HEADER_SIZE = 104
SECTION_SIZE = 16


def pack(format, *numbers, order="little"):
    """Numbers, as `struct.pack` writes them in a byte order."""
    return struct.pack(FORMAT[order] + format, *numbers)


def u64s(*numbers, order="little"):
    return pack(f"{len(numbers)}Q", *numbers, order=order)


def record(record_type, misc=0, body=b"", order="little"):
    return pack("IHH", record_type, misc, 8 + len(body), order=order) + body


def attribute(sample_type=0, flags=0, *, event_type=0, period=0, read_format=0, rest=b"", size=64, order="little"):
    """An attribute of `size` bytes. `rest` has those after the flags; what is missing is 0."""
    start = pack("IIQQQQQ", event_type, size, 0, period, sample_type, read_format, flags, order=order)
    return (start + rest).ljust(size, b"\0")


def header(data, *, attributes=(HEADER_SIZE, 80), entry_size=80, event_types=(0, 0), features=(), order="little"):
    """The header of a file. `data`, `attributes` and `event_types` are sections: offset and size. `entry_size` is that of an attribute with the section
    of its identifiers, and `features` are numbers."""
    sections = u64s(HEADER_SIZE, entry_size, *attributes, *data, *event_types, order=order)
    words = [sum(1 << feature % 64 for feature in features if feature // 64 == word) for word in range(4)]
    return MAGIC[order] + sections + u64s(*words, order=order)


def file(records, attribute=attribute(), *, ids=(), features={}, order="little"):
    """A file with an attribute, its identifiers, records, and feature sections by number."""
    entry_size = len(attribute) + SECTION_SIZE
    ids_at = HEADER_SIZE + entry_size
    ids_section = u64s(ids_at if ids else 0, 8 * len(ids), order=order)
    data_at = ids_at + 8 * len(ids)
    start = header((data_at, len(records)), attributes=(HEADER_SIZE, entry_size), entry_size=entry_size, features=features, order=order)
    table, sections = b"", b""
    sections_at = data_at + len(records) + SECTION_SIZE * len(features)
    for _, section in sorted(features.items()):
        table += u64s(sections_at + len(sections), len(section), order=order)
        sections += section
    return start + attribute + ids_section + u64s(*ids, order=order) + records + table + sections


def pipe(*records, order="little"):
    return MAGIC[order] + u64s(16, order=order) + b"".join(records)
