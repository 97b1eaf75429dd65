"""Tests of the package over the recordings of the repository. With the variable PERFLIST, which names perflist's program, the records
are also compared with its lines. The tests of arrays and of data frames run where numpy and pandas are installed."""

import collections
import contextlib
import glob
import importlib.util
import io
import mmap
import os
import pathlib
import random
import struct
import subprocess
import sys
import tarfile
import tempfile
import unittest

import dewikura
from dewikura.__main__ import main, record_line

TOP = pathlib.Path(__file__).resolve().parents[3]
sys.path.insert(0, str(TOP / "tests"))
import perfdata
CALLS = TOP / "tests/recordings/calls.data"
CALLS_PIPE = TOP / "tests/recordings/calls.pipe"
FIRST = TOP / "tests/recordings/first.data"
SEVERAL = TOP / "tests/recordings/several.data"
STREAM = TOP / "crates/perflist/stdin"
DUMP = TOP / "tests/recordings/node.dump"
COMPRESSED = TOP / "tests/compressed/recordings.tar.xz"
FOLD_CHAIN = TOP / "tests/recordings/chain.data"
FOLD_THREADS = TOP / "tests/recordings/threads.data"
BUILD_ID = TOP / "tests/recordings/buildid.data"
HAS_NUMPY, HAS_PANDAS = (importlib.util.find_spec(name) is not None for name in ("numpy", "pandas"))
PERFLIST = os.environ.get("PERFLIST")


def command(*arguments):
    """The exit status, the output and the error output of the package's program."""
    with contextlib.redirect_stdout(io.StringIO()) as output, contextlib.redirect_stderr(io.StringIO()) as errors:
        status = main(list(arguments))
    return status, output.getvalue(), errors.getvalue()


class RecordingTest(unittest.TestCase):
    """The values are those of perf and of a reference implementation for the recordings (their recordings.txt)."""

    def test_attributes(self):
        events = ("cpu-clock", "task-clock", "page-faults", "context-switches")
        flags = (0x63943703, 0x2141403, 0x2141403, 0x2141403)
        for path, first_id in ((CALLS, 33), (CALLS_PIPE, 110)):
            with dewikura.open(path) as recording:
                found = [(attr.index, attr.name, attr.type, attr.config, attr.sample_freq, attr.sample_period, int(attr.sample_type),
                          int(attr.read_format), int(attr.flags), attr.ids) for attr in recording.attributes]
            self.assertEqual(found, [(i, events[i], dewikura.EventType.SOFTWARE, i, 400, None, 0x10127, 0x14, flags[i],
                                      tuple(range(first_id + 4 * i, first_id + 4 * i + 4))) for i in range(4)])

    def test_features(self):
        with dewikura.open(CALLS) as recording:
            self.assertEqual(len(recording.features), 22)
            self.assertEqual(bytes(recording.features[dewikura.Feature.HOSTNAME][4:7]), b"vm\0")
            self.assertEqual(bytes(recording.features[dewikura.Feature.ARCH][4:10]), b"x86_64")
            self.assertEqual((recording.hostname, recording.arch), ("vm", "x86_64"))
            self.assertEqual(recording.cmdline[1], "record")
            self.assertIn(dewikura.Feature.HOSTNAME, list(recording.features))
            self.assertNotIn(200, recording.features)
            self.assertRaises(KeyError, lambda: recording.features[200])
        with dewikura.open(CALLS_PIPE) as recording:
            self.assertEqual(recording.kind, dewikura.Kind.PIPE)
            self.assertEqual(bytes(recording.features[dewikura.Feature.HOSTNAME][4:7]), b"vm\0")
            self.assertEqual(recording.build_ids, ())

    def test_input_kind(self):
        def header(size, order):
            return perfdata.MAGIC[order] + size.to_bytes(8, order)

        for order in ("little", "big"):
            for size, kind in ((16, "PIPE"), (24, "PIPE"), (103, "PIPE"), (104, "FILE"), (2**64 - 1, "FILE")):
                self.assertEqual(dewikura.input_kind(header(size, order)), dewikura.InputKind[kind])
            self.assertEqual(dewikura.from_buffer(header(24, order)).kind, dewikura.Kind.PIPE)
        self.assertEqual(dewikura.input_kind(DUMP.read_bytes()), dewikura.InputKind.JITDUMP)
        for data in (b"", b"DTi", header(16, "little")[:15], b"PERFILE3" + bytes(8)):
            self.assertEqual(dewikura.input_kind(data), dewikura.InputKind.NONE)

    def test_demangle(self):
        # The texts are those of c++filt -p -i and c++filt -i.
        for name, text, signature in (
                ("_ZNK9LoadBNode11memory_typeEv", "LoadBNode::memory_type", "LoadBNode::memory_type() const"),
                ("_Z3asgIidEDTaSfp_fp0_ET_T0_", "asg<int, double>", "decltype ({parm#1}={parm#2}) asg<int, double>(int, double)"),
                ("_ZN3std3net3tcp9TcpStream13write_timeout17h70f7ef1d485fa773E", *2 * ("std::net::tcp::TcpStream::write_timeout",)),
                ("_RNvMsm_NtCsdadwybgsbvk_12rustc_middle2tyNtB5_4Term8is_infer", *2 * ("<rustc_middle::ty::Term>::is_infer",))):
            self.assertEqual((dewikura.demangle(name), dewikura.demangle(name, parameters=True)), (text, signature))
            self.assertEqual(dewikura.demangle(name.encode()), text)
        for name in ("", b"", "main", "_Z", "_R", "_ZN", "\udcff", b"_Z\xff", "_ZNK9LoadBNode", "_Z9" + 16384 * "a"):
            self.assertIsNone(dewikura.demangle(name))
        # The text doesn't fit into the array of the first call.
        self.assertEqual(dewikura.demangle("_Z9000" + 9000 * "a"), 9000 * "a")

    def test_tracing_data(self):
        for order in ("little", "big"):
            opening = (perfdata.record(64, 0, perfdata.attribute(order=order), order), perfdata.record(9, 0, bytes(8), order))
            self.assertEqual(len(dewikura.from_buffer(perfdata.pipe(*opening, order=order)).records), 1)
            data = perfdata.pipe(*opening, perfdata.record(66, 0, bytes(4), order), b"\x17\x08\x44tracing", order=order)
            with self.assertRaisesRegex(dewikura.UnsupportedError, "tracing data in a pipe isn't supported: record to a file"):
                dewikura.from_buffer(data)

    def test_symbols(self):
        path = pathlib.Path(dewikura._native._library._name)
        symbols = dewikura.symbols(path)
        names = {symbols.name(index): symbol for index, symbol in enumerate(symbols)}
        version = names[b"dewikura_version"]
        self.assertGreater(version.size, 0)
        self.assertEqual([symbols.name(found) for found in symbols.find([version.start, version.start + version.size - 1])], 2 * [b"dewikura_version"])
        self.assertEqual(symbols.find_indices([2**63]), [-1])
        last = [max((index for index, symbol in enumerate(symbols) if symbol.start <= offset < symbol.start + symbol.size), default=-1)
                for offset in range(version.start - 64, version.start + 64)]
        self.assertEqual(symbols.find_indices(range(version.start - 64, version.start + 64)), last)
        self.assertEqual(len(dewikura.symbols(path.read_bytes())), len(symbols))
        self.assertRaises(dewikura.FormatError, dewikura.symbols, FIRST)
        self.assertRaises(dewikura.FormatError, dewikura.build_id, b"")
        self.assertRaises(dewikura.FormatError, dewikura.symbols, path.read_bytes()[:100])

    def test_functions(self):
        library = pathlib.Path(dewikura._native._library._name)
        symbols = dewikura.symbols(library)
        with dewikura.open(CALLS) as recording, tempfile.TemporaryDirectory() as folder:
            stacks = recording.stacks
            self.assertEqual(set(stacks.functions(symfs=folder)), {None})
            path = next(path for path in map(stacks.mappings.path, range(len(stacks.mappings))) if path.startswith(b"/usr/lib"))
            copy = pathlib.Path(folder + path.decode())
            copy.parent.mkdir(parents=True)
            copy.write_bytes(library.read_bytes())
            for frame, function in zip(stacks.frames, stacks.functions(symfs=folder)):
                mapping = stacks.mapping_of(frame)
                found = symbols.find([frame.file_offset])[0] if mapping and stacks.mappings.path(mapping) == path else None
                self.assertEqual(function, found and (dewikura.demangle(symbols.name(found)) or symbols.name(found).decode()))

    def test_build_ids(self):
        with dewikura.open(CALLS) as recording:
            found = sorted((entry.path, entry.build_id.hex(), entry.kind.name) for entry in recording.build_ids)
            misc = {entry.path[:1]: entry.misc for entry in recording.build_ids if entry.path != b"[vdso]"}
        self.assertEqual(misc, {b"/": 0x8002, b"[": 0x8001})  # PERF_RECORD_MISC_BUILD_ID_SIZE, and the modes of programs and of the kernel
        self.assertEqual(found, [
            (b"/usr/bin/bash", "135afc8c6d1b9e02356cce218bf0109c3687ad9f", "USER"),
            (b"/usr/lib/x86_64-linux-gnu/ld-linux-x86-64.so.2", "7ebc65e52f2bbea498b4040fa92f7238377aaba9", "USER"),
            (b"/usr/lib/x86_64-linux-gnu/libc.so.6", "93ac61ec5a8eb1396f9fbd350e3169a558528a40", "USER"),
            (b"[kernel.kallsyms]", "e4f18d9dc1d0e6fc2b17e93e885a647b3c0a6fc1", "KERNEL"),
            (b"[vdso]", "a599807156a2a62fe956a82e388aeeabc874119c", "VDSO64"),
        ])

    def test_buffers(self):
        data = FIRST.read_bytes()
        with open(FIRST, "rb") as file, mmap.mmap(file.fileno(), 0, access=mmap.ACCESS_READ) as mapping:
            wanted = [bytes(record) for record in dewikura.from_buffer(data).records]
            for buffer in (bytearray(data), memoryview(data), mapping):
                with dewikura.from_buffer(buffer) as recording:
                    self.assertEqual([bytes(record) for record in recording.records], wanted)
                    self.assertEqual(recording.byteorder, "little")

    def test_records(self):
        with dewikura.open(SEVERAL) as recording:
            records = recording.records
            samples = [record for record in records if record.type == dewikura.RecordType.SAMPLE]
            self.assertEqual(len(samples), 35)
            self.assertEqual(records[-1].offset, records[len(records) - 1].offset)
            self.assertEqual([record.offset for record in records[::-2]], [record.offset for record in list(records)[::-2]])
            self.assertRaises(IndexError, lambda: records[len(records)])
            self.assertEqual(records.to_memoryview().itemsize, 56)
            self.assertEqual(records[3:5].to_memoryview().nbytes, 112)
            self.assertEqual(len(recording.body(samples[0])), samples[0].body_size)
            self.assertIs(recording.records, records)
            self.assertEqual(len(list(recording.events())), sum(record.attr_index is not None for record in records))
            data = SEVERAL.read_bytes()
            for record in records:
                self.assertEqual(recording.body(record), data[record.body_offset:record.body_offset + record.body_size])
        self.assertRaises(ValueError, lambda: recording.records)

    def test_records_by_time(self):
        for path in (FIRST, SEVERAL, CALLS, CALLS_PIPE):
            with dewikura.open(path) as recording:
                wanted = sorted(recording.records, key=lambda record: 0 if record.timestamp in (None, 2 ** 64 - 1) else record.timestamp)
                self.assertEqual([bytes(record) for record in recording.records_by_time()], [bytes(record) for record in wanted])

    def test_simpleperf(self):
        meta_info = b"event_type_info\0cpu-cycles,0,0\0simpleperf_version\x001.build.9\0empty\0\0simpleperf_version\x001.build.10\0unpaired"
        kernel = b"[kernel]\0" + struct.pack("<IQI", 0, 0xffff000000000000, 0)
        elf = b"/system/lib64/libc.so\0" + struct.pack("<IQI", 2, 0x1000, 2)
        elf += struct.pack("<QI", 0x1010, 16) + b"malloc\0" + struct.pack("<QI", 0x1020, 8) + "größe\0".encode() + struct.pack("<Q", 0x400)
        dex = b"/data/app/base.vdex\0" + struct.pack("<IQII", 3, 0, 0, 2) + struct.pack("<QQ", 0x28, 0x5000)
        files = b"".join(struct.pack("<I", len(file)) + file for file in (kernel, elf, dex))
        kinds = dewikura.SymbolFileType
        data = with_features({dewikura.Feature.SIMPLEPERF_FILE: files, dewikura.Feature.SIMPLEPERF_META_INFO: meta_info})
        with dewikura.from_buffer(data) as recording:
            self.assertEqual(recording.simpleperf_meta_info, {
                "event_type_info": "cpu-cycles,0,0", "simpleperf_version": "1.build.10", "empty": ""})
            self.assertEqual([attr.name for attr in recording.attributes], ["cpu-cycles"])
            self.assertEqual(recording.simpleperf_symbols, (
                ("[kernel]", kinds.KERNEL, 0xffff000000000000, (), None, ()),
                ("/system/lib64/libc.so", kinds.ELF, 0x1000, ((0x1010, 16, "malloc"), (0x1020, 8, "größe")), 0x400, ()),
                ("/data/app/base.vdex", kinds.DEX, 0, (), None, (0x28, 0x5000)),
            ))
            self.assertIs(recording.simpleperf_symbols, recording.simpleperf_symbols)
        file2 = b"\x0a\x04/a.o\x10\x01\x18\x80\x20\x22\x06\x08\x81\x20\x1a\x01f\x3a\x02\x08\x07"
        data = with_features({dewikura.Feature.SIMPLEPERF_FILE: files, dewikura.Feature.SIMPLEPERF_FILE2: struct.pack("<I", len(file2)) + file2})
        with dewikura.from_buffer(data) as recording:
            self.assertEqual(recording.simpleperf_symbols, (("/a.o", kinds.KERNEL_MODULE, 0x1000, ((0x1001, 0, "f"),), 7, ()),))
        for section, status in ((files[:-1], dewikura.Status.TRUNCATED), (struct.pack("<I", 4) + b"/a\0\1", dewikura.Status.BAD_SYMBOL_TABLE)):
            with self.assertRaises(dewikura.FormatError) as caught:
                dewikura.from_buffer(with_features({dewikura.Feature.SIMPLEPERF_FILE: section})).simpleperf_symbols
            self.assertEqual(caught.exception.status, status)
        with self.assertRaises(dewikura.FormatError) as caught:
            dewikura.from_buffer(with_features({dewikura.Feature.SIMPLEPERF_META_INFO: b"key\0\xff\0"})).simpleperf_meta_info
        self.assertEqual(caught.exception.status, dewikura.Status.INVALID_UTF8)
        with dewikura.open(CALLS) as recording:
            self.assertEqual((recording.simpleperf_meta_info, recording.simpleperf_symbols), ({}, ()))

    def test_errors(self):
        data = FIRST.read_bytes()
        with self.assertRaises(dewikura.TruncatedError) as caught:
            dewikura.from_buffer(b"").records
        self.assertEqual(caught.exception.status, dewikura.Status.TRUNCATED)
        with self.assertRaises(dewikura.FormatError) as caught:
            dewikura.from_buffer(b"x" * 200).attributes
        self.assertEqual((caught.exception.status, str(caught.exception)), (dewikura.Status.BAD_MAGIC, "not a perf.data file or pipe"))
        with dewikura.open(FIRST) as recording:
            last = recording.records[-1]
        short = dewikura.from_buffer(data[:last.body_offset])
        records, error = short.partial_records()
        self.assertEqual((len(records), error.record_count), (last_index(data), last_index(data)))
        self.assertIsInstance(error, dewikura.PerfDataError)
        self.assertIn(f"after {len(records)} records", str(error))
        with tempfile.NamedTemporaryFile() as empty:
            self.assertRaises(dewikura.TruncatedError, lambda: dewikura.open(empty.name).records)

    def test_version(self):
        self.assertEqual(".".join(map(str, dewikura.library_version())), dewikura.__version__)

    @unittest.skipUnless(HAS_NUMPY, "numpy isn't installed")
    def test_numpy(self):
        with dewikura.open(SEVERAL) as recording:
            array = recording.records.to_numpy()
            self.assertEqual(array.dtype.itemsize, 56)
            self.assertEqual(int((array["type"] == dewikura.RecordType.SAMPLE).sum()), 35)
            masked = recording.records.masked("timestamp")
            self.assertEqual([None if value is None else int(value) for value in masked.tolist()],
                             [record.timestamp for record in recording.records])
            self.assertEqual(recording.records[2:4].to_numpy()["offset"].tolist(), [record.offset for record in recording.records[2:4]])
            self.assertEqual(len(dewikura.from_buffer(__import__("numpy").frombuffer(SEVERAL.read_bytes(), "u1")).records), len(array))


class UnfinishedTest(unittest.TestCase):
    """Files of which the end is missing: the whole records are those of the whole file."""

    def opened(self, size):
        with tempfile.NamedTemporaryFile() as file:
            file.write(SEVERAL.read_bytes()[:size])
            file.flush()
            with dewikura.open(file.name, unfinished=True) as recording:
                return [bytes(recording.body(record)) for record in recording.records], sorted(recording.features)

    def test_truncated(self):
        with dewikura.open(SEVERAL) as recording:
            bodies = [bytes(recording.body(record)) for record in recording.records]
        for size, count, features in ((4520, len(bodies), []), (4500, len(bodies) - 1, []), (640, 0, [])):
            found, sections = self.opened(size)
            self.assertEqual(found, bodies[:count])
            self.assertEqual(sections, features)

    def test_whole(self):
        with dewikura.open(SEVERAL) as recording, dewikura.open(SEVERAL, unfinished=True) as finished:
            self.assertEqual([record.offset for record in finished.records], [record.offset for record in recording.records])
            self.assertEqual({number: bytes(finished.features[number]) for number in finished.features},
                             {number: bytes(recording.features[number]) for number in recording.features})

    def test_no_header(self):
        with tempfile.NamedTemporaryFile() as file:
            file.write(SEVERAL.read_bytes()[:103])
            file.flush()
            with self.assertRaises(dewikura.PerfDataError):
                dewikura.open(file.name, kind=dewikura.Kind.FILE, unfinished=True)


class CompressedTest(unittest.TestCase):
    """Recordings of `perf record -z`: the same without compression, and their records."""

    def setUp(self):
        with tarfile.open(COMPRESSED, "r:xz") as members:
            self.files = {member.name: members.extractfile(member).read() for member in members if member.isfile()}

    def test_decompress(self):
        plain = {name: data for name, data in self.files.items() if name.startswith("plain/")}
        self.assertGreater(len(plain), 20)
        for name, data in plain.items():
            self.assertEqual(dewikura.decompress(self.files[name.split("/")[1]]), data, name)
            self.assertEqual(dewikura.decompress(data), data, name)

    def test_open(self):
        for name in ("z3-short.data", "z3-short.pipe"):
            with tempfile.NamedTemporaryFile() as file:
                file.write(self.files[name])
                file.flush()
                with dewikura.open(file.name) as recording:
                    times = [record.timestamp for record in recording.records]
            self.assertEqual(times, [record.timestamp for record in dewikura.from_buffer(self.files["plain/" + name]).records])
            with self.assertRaises(dewikura.UnsupportedError):
                dewikura.from_buffer(self.files[name]).records

    def test_error(self):
        # The type of the first block is the reserved one.
        data = bytearray(self.files["z3-short.pipe"])
        frame = data.index(bytes.fromhex("28b52ffd"))
        data[frame + 6] |= 6
        with self.assertRaises(dewikura.UnsupportedError) as raised:
            dewikura.from_buffer(dewikura.decompress(data)).records
        self.assertEqual(raised.exception.status, dewikura.Status.COMPRESSED)
        with self.assertRaises(dewikura.PerfDataError):
            dewikura.decompress(b"no recording")


def last_index(data):
    """The number of records before the last one of a file."""
    return len(dewikura.from_buffer(data).records) - 1


def with_features(sections):
    """A file with one attribute, no records, and these feature sections."""
    return perfdata.file(b"", perfdata.attribute(event_type=1), features=sections)


def debug_info(data, offset):
    """The debug info record at an offset of a jitdump, parsed by the format's description."""
    code_address, count = struct.unpack_from("<QQ", data, offset + 16)
    entries, offset = [], offset + 32
    for _ in range(count):
        entry = struct.unpack_from("<QII", data, offset)
        end = data.index(b"\0", offset + 16)
        entries.append((*entry, data[offset + 16:end]))
        offset = end + 1
    return code_address, tuple(entries)


class SampleTest(unittest.TestCase):
    """The fields are taken from the bodies by hand: PERF_RECORD_SAMPLE of the kernel's perf_event.h."""

    def test_samples_of_words(self):
        # IDENTIFIER, IP, TID, TIME, PERIOD
        with dewikura.open(SEVERAL) as recording:
            records = [record for record in recording.records if record.type == dewikura.RecordType.SAMPLE]
            samples = recording.samples
            self.assertEqual((len(samples), len(recording.frames)), (35, 0))
            for record, sample in zip(records, samples):
                identifier, ip, pid, tid, time, period = struct.unpack("<QQiiQQ", recording.body(record))
                self.assertEqual((sample.offset, sample.attr_index, sample.misc), (record.offset, record.attr_index, record.misc))
                self.assertEqual((sample.id, sample.ip, sample.pid, sample.tid, sample.timestamp, sample.period), (identifier, ip, pid, tid, time, period))
                self.assertEqual((sample.address, sample.cpu, int(sample.fields)), (0, 0, 0x10107))
                self.assertEqual((sample.error, sample.frames_count), (dewikura.BodyError.COMPLETE, 0))
            self.assertEqual(samples[0].cpu_mode, dewikura.CpuMode.KERNEL)
            self.assertEqual([sample.offset for sample in samples[3:1:-1]], [samples[3].offset, samples[2].offset])

    def test_frames(self):
        # IDENTIFIER, IP, TID, TIME, PERIOD, CALLCHAIN
        contexts = {2 ** 64 - 128: dewikura.FrameContext.KERNEL, 2 ** 64 - 512: dewikura.FrameContext.USER}
        for path in (CALLS, CALLS_PIPE):
            with dewikura.open(path) as recording:
                records = [record for record in recording.records if record.type == dewikura.RecordType.SAMPLE]
                samples, start = recording.samples, 0
                self.assertEqual(len(samples), len(records))
                for record, sample in zip(records, samples):
                    body, wanted, context = recording.body(record), [], dewikura.FrameContext.USER
                    for value in struct.unpack_from(f"<{int.from_bytes(body[40:48], 'little')}Q", body, 48):
                        if value in contexts:
                            context = contexts[value]
                        else:
                            wanted.append((value, context))
                    self.assertEqual([(frame.address, frame.context) for frame in samples.frames_of(sample)], wanted)
                    self.assertEqual((sample.frames_start, sample.frames_count), (start, len(wanted)))
                    start += len(wanted)
                self.assertEqual(len(recording.frames), start)
                self.assertGreater(start, 100)

    def test_samples_by_time(self):
        for path in (FIRST, SEVERAL, CALLS, CALLS_PIPE):
            with dewikura.open(path) as recording:
                samples, ordered = recording.samples, recording.samples_by_time()
                wanted = sorted(samples, key=lambda sample: 0 if sample.timestamp == 2**64 - 1 else sample.timestamp)
                self.assertEqual([bytes(sample) for sample in ordered], [bytes(sample) for sample in wanted])
                self.assertEqual([bytes(frame) for sample in ordered for frame in ordered.frames_of(sample)],
                                 [bytes(frame) for sample in wanted for frame in samples.frames_of(sample)])
                self.assertIs(recording.samples_by_time(), ordered)

    def test_samples_without_times(self):
        # Samples with the times 5, none (2^64 - 1), 3, none (0) and 3.
        records = b"".join(perfdata.record(9, 2, perfdata.u64s(time)) for time in (5, 2 ** 64 - 1, 3, 0, 3))
        with dewikura.from_buffer(perfdata.file(records, perfdata.attribute(1 << 2, event_type=1))) as recording:
            self.assertEqual([sample.offset // 16 for sample in recording.samples_by_time()], [1, 3, 2, 4, 0])

    def test_details(self):
        # RAW and WEIGHT
        records = perfdata.record(9, 2, struct.pack("<I12sQ", 12, b"raw data", 77)) + perfdata.record(9, 2)
        with dewikura.from_buffer(perfdata.file(records, perfdata.attribute(1 << 10 | 1 << 14, event_type=1))) as recording:
            first, second = recording.records
            details = recording.details(first)
            self.assertEqual((details.weight, details.raw_offset, details.raw_size, details.aux_size), (77, 4, 12, 0))
            self.assertEqual(bytes(recording.body(first)[details.raw_offset:][:details.raw_size]), b"raw data\0\0\0\0")
            self.assertRaises(dewikura.TruncatedError, lambda: recording.details(second))

    def test_many_pages(self):
        # Records of 8 bytes: more of them than the first array has elements.
        count = 500
        with dewikura.from_buffer(perfdata.file(perfdata.record(9, 2) * count, perfdata.attribute(1 << 2, event_type=1))) as recording:
            samples = recording.samples
            self.assertEqual([sample.offset for sample in samples], [8 * index for index in range(count)])
            self.assertEqual({sample.error for sample in samples}, {dewikura.BodyError.TRUNCATED})

    def test_errors(self):
        data = SEVERAL.read_bytes()
        with dewikura.from_buffer(data) as recording:
            last = recording.samples[-1]
            start = int.from_bytes(data[40:48], "little")
        damaged = bytearray(data)
        damaged[start + last.offset + 6:start + last.offset + 8] = b"\1\0"
        with dewikura.from_buffer(damaged) as recording:
            samples, error = recording.partial_samples()
            self.assertEqual((len(samples), error.status), (34, dewikura.Status.BAD_RECORD_SIZE))
            self.assertRaises(dewikura.FormatError, lambda: recording.samples)
        with dewikura.from_buffer(b"") as recording:
            self.assertRaises(dewikura.TruncatedError, lambda: recording.samples)

    @unittest.skipUnless(HAS_NUMPY, "numpy isn't installed")
    def test_numpy(self):
        with dewikura.open(CALLS) as recording:
            samples, frames = recording.samples.to_numpy(), recording.frames.to_numpy()
            self.assertEqual(samples["ip"].tolist(), [sample.ip for sample in recording.samples])
            self.assertEqual(samples["pid"].tolist(), [sample.pid for sample in recording.samples])
            self.assertEqual(samples["misc"].tolist(), [sample.misc for sample in recording.samples])
            self.assertEqual(frames["address"].tolist(), [frame.address for frame in recording.frames])
            self.assertEqual((samples.itemsize, frames.itemsize), (88, 16))
            self.assertIs(samples.flags.owndata, False)


class StackTest(unittest.TestCase):
    """The mappings and names are found among those of `mappings` and `tasks`, by the rules of processes and threads."""

    def stacks_of(self, recording):
        """Each stack by the offset of its record: the name of the thread, and of each frame path, offset in the file and build id."""
        changes = [*recording.mappings, *recording.tasks]
        spaces, names, found = collections.defaultdict(list), {}, {}
        for entry in sorted([*recording.samples, *changes], key=lambda entry: (entry.timestamp, entry.offset)):
            if isinstance(entry, dewikura.Sample):
                found[entry.offset] = names.get(entry.tid), [self.place(recording, spaces, entry, *frame) for frame in self.frames_of(recording, entry)]
            elif isinstance(entry, dewikura.Mapping):
                spaces[-1 if entry.cpu_mode == dewikura.CpuMode.KERNEL else entry.pid].append(entry)
            elif entry.type == dewikura.RecordType.COMM:
                names[entry.tid] = recording.name(entry)
                if entry.is_execve:
                    spaces[entry.pid].clear()
            elif entry.type == dewikura.RecordType.FORK:
                names[entry.tid] = names.get(entry.ptid)
                if entry.pid != entry.ppid:
                    spaces[entry.pid] = spaces[entry.ppid].copy()
        return found

    def frames_of(self, recording, sample):
        frames = [(frame.address, frame.context) for frame in recording.samples.frames_of(sample)]
        callers = [0, *(before[1] == after[1] for before, after in zip(frames, frames[1:]))]
        mode = dewikura.FrameContext.KERNEL if sample.cpu_mode == dewikura.CpuMode.KERNEL else dewikura.FrameContext.USER
        has_ip = recording.attributes[sample.attr_index].sample_type & 1
        return [(*frame, int(is_caller)) for frame, is_caller in zip(frames, callers)] or [(sample.ip, mode, 0)] * has_ip

    def place(self, recording, spaces, sample, address, context, is_caller):
        looked_up = address - is_caller
        mappings = spaces[-1 if context == dewikura.FrameContext.KERNEL else sample.pid]
        mapping = next((mapping for mapping in reversed(mappings) if 0 <= looked_up - mapping.address < mapping.length), None)
        if mapping is None:
            return address, bool(is_caller), None
        return address, bool(is_caller), (recording.path(mapping), (looked_up - mapping.address + mapping.page_offset) % 2**64, mapping.build_id)

    def test_stacks(self):
        for path in (CALLS, CALLS_PIPE, FIRST, SEVERAL, FOLD_CHAIN, FOLD_THREADS, BUILD_ID):
            with dewikura.open(path) as recording:
                stacks, wanted = recording.stacks, self.stacks_of(recording)
                self.assertEqual(len(stacks), len(wanted))
                if path != FIRST:  # only its samples have times, so it is in the order of the file
                    self.assertEqual([stack.timestamp for stack in stacks], sorted(stack.timestamp for stack in stacks))
                for stack in stacks:
                    places = []
                    for frame in stacks.frames_of(stack):
                        mapping = recording.mapping_of(frame)
                        places.append((frame.address, frame.is_caller, mapping and (recording.path(mapping), frame.file_offset, mapping.build_id)))
                    self.assertEqual((stacks.name(stack), places), wanted[stack.offset])
                self.assertIs(recording.stacks, stacks)
                self.assertEqual([bytes(stack) for stack in stacks[3:1:-1]], [bytes(stacks[index]) for index in (3, 2) if index < len(stacks)])

    def test_errors(self):
        data = bytearray(SEVERAL.read_bytes())
        with dewikura.from_buffer(data) as recording:
            last = recording.samples[-1]
        start = int.from_bytes(data[40:48], "little")
        data[start + last.offset + 6:start + last.offset + 8] = b"\1\0"
        with dewikura.from_buffer(data) as recording:
            stacks, error = recording.partial_stacks()
            self.assertEqual((len(stacks), error.status), (34, dewikura.Status.BAD_RECORD_SIZE))
            self.assertRaises(dewikura.FormatError, lambda: recording.stacks)
        with dewikura.from_buffer(b"") as recording:
            self.assertRaises(dewikura.TruncatedError, lambda: recording.stacks)

    def test_many_frames(self):
        # Chains with more frames than the first array has elements, and a thread that no record names.
        chain = perfdata.u64s(100, *range(100))
        with dewikura.from_buffer(perfdata.file(20 * perfdata.record(9, 2, chain), perfdata.attribute(1 << 5, event_type=1))) as recording:
            stacks = recording.stacks
            self.assertEqual((len(stacks), len(stacks.frames), len(stacks.mappings)), (20, 2000, 0))
            self.assertEqual({(stacks.name(stack), stack.pid, stack.tid) for stack in stacks}, {(None, -1, -1)})
            self.assertEqual([frame.address for frame in stacks.frames_of(19)], list(range(100)))
            self.assertEqual([frame.lookup_address for frame in stacks.frames_of(19)], [0, *range(99)])
            self.assertEqual({recording.mapping_of(frame) for frame in stacks.frames}, {None})

    @unittest.skipUnless(HAS_NUMPY, "numpy isn't installed")
    def test_numpy(self):
        with dewikura.open(CALLS) as recording:
            stacks, frames, mappings = (sequence.to_numpy() for sequence in (recording.stacks, recording.stacks.frames, recording.stacks.mappings))
            self.assertEqual((stacks.itemsize, frames.itemsize, mappings.itemsize), (80, 32, 80))
            self.assertEqual(frames["file_offset"].tolist(), [frame.file_offset for frame in recording.stacks.frames])
            self.assertEqual(mappings["start"].tolist(), [mapping.start for mapping in recording.stacks.mappings])

    @unittest.skipUnless(HAS_PANDAS, "pandas isn't installed")
    def test_pandas(self):
        with dewikura.open(CALLS) as recording:
            found = recording.stacks.to_pandas()
            self.assertEqual(found["name"].tolist(), [recording.stacks.name(stack).decode() for stack in recording.stacks])
            self.assertEqual(found["event"].tolist(), [recording.attributes[stack.attr_index].name for stack in recording.stacks])
            paths = recording.stacks.mappings.to_pandas()["path"]
            self.assertEqual(paths.tolist(), [recording.path(mapping).decode() for mapping in recording.stacks.mappings])
            self.assertEqual(recording.stacks.frames.to_pandas()["is_caller"].tolist(), [frame.is_caller for frame in recording.stacks.frames])


class TaskTest(unittest.TestCase):
    """The fields are taken from the bodies by hand: PERF_RECORD_COMM, _FORK and _EXIT of the kernel's perf_event.h."""

    def test_tasks(self):
        kinds = dewikura.RecordType
        for path in (CALLS, CALLS_PIPE, FIRST, SEVERAL):
            with dewikura.open(path) as recording:
                records = [record for record in recording.records if record.type in (kinds.COMM, kinds.FORK, kinds.EXIT)]
                tasks = recording.tasks
                self.assertEqual([task.offset for task in tasks], [record.offset for record in records])
                for record, task in zip(records, tasks):
                    body = recording.body(record)
                    self.assertEqual((task.type, task.timestamp), (record.type, record.timestamp or 0))
                    if record.type == kinds.COMM:
                        name = bytes(body[8:]).partition(b"\0")[0]
                        wanted = (*struct.unpack_from("<ii", body), 0, 0, name, bool(record.misc & 1 << 13))
                    else:
                        pid, parent_pid, tid, parent_tid = struct.unpack_from("<iiii", body)
                        wanted = (pid, tid, parent_pid, parent_tid, b"", False)
                    self.assertEqual((task.pid, task.tid, task.ppid, task.ptid, recording.name(task), task.is_execve), wanted)
            self.assertRaises(ValueError, lambda: recording.name(dewikura.Task()))

    def test_counters(self):
        """No recording has any: a file with an attribute of a group, and samples with more counters than the first array has elements."""
        read_format = dewikura.ReadFormat.GROUP | dewikura.ReadFormat.ID
        attribute = perfdata.attribute(1 << 16 | 1 << 4, event_type=1, period=1, read_format=read_format, size=136)
        counters = [(0xb00 + index, 0xc00 + index) for index in range(40)]
        body = struct.pack("<QQ", 1, len(counters)) + b"".join(struct.pack("<QQ", *counter) for counter in counters)
        with dewikura.from_buffer(perfdata.file(2 * perfdata.record(9, 2, body), attribute)) as recording:
            found = [(counter.value, counter.id, counter.offset) for counter in recording.counters]
            self.assertEqual(found, [(*counter, offset) for offset in (0, 8 + len(body)) for counter in counters])
            self.assertEqual({(counter.time_enabled, counter.time_running, counter.lost) for counter in recording.counters}, {(0, 0, 0)})
        with dewikura.open(SEVERAL) as recording:
            self.assertEqual(len(recording.counters), 0)

    def test_mappings(self):
        kinds = dewikura.RecordType
        for path in (CALLS, CALLS_PIPE, FIRST, SEVERAL):
            with dewikura.open(path) as recording:
                records = [record for record in recording.records if record.type in (kinds.MMAP, kinds.MMAP2)]
                mappings = recording.mappings
                self.assertEqual([mapping.offset for mapping in mappings], [record.offset for record in records])
                for record, mapping in zip(records, mappings):
                    body, is_mmap2 = recording.body(record), record.type == kinds.MMAP2
                    self.assertEqual((mapping.type, mapping.timestamp, mapping.misc), (record.type, record.timestamp or 0, record.misc))
                    self.assertEqual(mapping.is_data, bool(record.misc & 1 << 13))
                    found = mapping.pid, mapping.tid, mapping.address, mapping.length, mapping.page_offset
                    self.assertEqual(found, struct.unpack_from("<iiQQQ", body))
                    self.assertEqual(recording.path(mapping), bytes(body[64 if is_mmap2 else 32:]).partition(b"\0")[0])
                    has_build_id = is_mmap2 and bool(record.misc & 1 << 14)
                    self.assertEqual(mapping.build_id, bytes(body[36:36 + body[32]]) if has_build_id else b"")
                    file_id = mapping.major, mapping.minor, mapping.inode, mapping.inode_generation
                    self.assertEqual(file_id, struct.unpack_from("<IIQQ", body, 32) if is_mmap2 and not has_build_id else (0, 0, 0, 0))
                    self.assertEqual((mapping.protection, mapping.flags), struct.unpack_from("<II", body, 56) if is_mmap2 else (0, 0))
            self.assertRaises(ValueError, lambda: recording.path(dewikura.Mapping()))

    def test_many_tasks(self):
        # More of them than the first array has elements.
        records = b"".join(perfdata.record(3, 0, struct.pack("<ii8s", -index, index, b"a name")) for index in range(500))
        bad_record = struct.pack("<IHH", 3, 0, 7)
        attribute = perfdata.attribute(event_type=1)
        for data, status in ((perfdata.file(records, attribute) + bad_record, None),
                             (perfdata.file(records + bad_record, attribute), dewikura.Status.BAD_RECORD_SIZE)):
            with dewikura.from_buffer(data) as recording:
                tasks, error = recording.partial_tasks()
                self.assertEqual([(task.pid, task.tid) for task in tasks], [(-index, index) for index in range(500)])
                self.assertEqual({recording.name(task) for task in tasks}, {b"a name"})
                self.assertEqual(error and error.status, status)
                if error:
                    self.assertRaises(dewikura.FormatError, lambda: recording.tasks)

    @unittest.skipUnless(HAS_NUMPY, "numpy isn't installed")
    def test_numpy(self):
        with dewikura.open(CALLS) as recording:
            tasks = recording.tasks.to_numpy()
            for field in ("pid", "type", "is_execve", "name_offset"):
                self.assertEqual(tasks[field].tolist(), [getattr(task, field) for task in recording.tasks])
            self.assertEqual(tasks.itemsize, 56)
            mappings = recording.mappings.to_numpy()
            for field in ("address", "type", "is_data", "build_id_size", "misc"):
                self.assertEqual(mappings[field].tolist(), [getattr(mapping, field) for mapping in recording.mappings])
            self.assertEqual((mappings.itemsize, mappings["build_id"].shape), (128, (len(mappings), 20)))


@unittest.skipUnless(HAS_PANDAS, "pandas isn't installed")
class DataFrameTest(unittest.TestCase):
    """The columns are the fields of the structs, with texts in place of their positions."""

    def test_records(self):
        for path in (SEVERAL, CALLS_PIPE):
            with dewikura.open(path) as recording:
                records, frame = recording.records, recording.records.to_pandas()
                self.assertEqual(sorted(frame), ["attr_index", "body_offset", "body_size", "event", "misc", "offset", "round", "timestamp", "type"])
                for field in ("offset", "body_offset", "body_size", "round", "misc", "type"):
                    self.assertEqual(frame[field].tolist(), [getattr(record, field) for record in records])
                for field in ("timestamp", "attr_index"):
                    found = [int(value) if is_present else None for value, is_present in zip(frame[field], frame[field].notna())]
                    self.assertEqual(found, [getattr(record, field) for record in records])
                names = [None if record.attr_index is None else recording.attributes[record.attr_index].name for record in records]
                self.assertEqual(frame["event"].astype(object).where(frame["event"].notna(), None).tolist(), names)
                self.assertIn(None, names)
                self.assertEqual(records[3:9:2].to_pandas()["offset"].tolist(), [record.offset for record in records[3:9:2]])

    def test_samples(self):
        with dewikura.open(CALLS) as recording:
            samples, frame = recording.samples, recording.samples.to_pandas()
            for field in ("offset", "timestamp", "ip", "id", "period", "frames_start", "frames_count", "fields", "cpu", "pid", "tid", "misc", "error"):
                self.assertEqual(frame[field].tolist(), [getattr(sample, field) for sample in samples])
            self.assertEqual(frame["event"].tolist(), [recording.attributes[sample.attr_index].name for sample in samples])
            self.assertEqual(recording.samples_by_time().to_pandas()["offset"].tolist(), [sample.offset for sample in recording.samples_by_time()])
            self.assertEqual(samples[5:2:-1].to_pandas()["event"].tolist(), frame["event"].tolist()[5:2:-1])
            frames = recording.frames.to_pandas()
            self.assertEqual(list(frames), ["address", "context"])
            self.assertEqual(frames["address"].tolist(), [frame.address for frame in recording.frames])
        self.assertRaises(ValueError, samples.to_pandas)

    def test_events_before_an_error(self):
        data = bytearray(CALLS_PIPE.read_bytes())
        with dewikura.from_buffer(data) as recording:
            last = recording.records[-1]
            names = recording.samples.to_pandas()["event"].tolist()
        data[last.body_offset - 2:last.body_offset] = b"\1\0"
        with dewikura.from_buffer(data) as recording:
            samples, error = recording.partial_samples()
            self.assertEqual(error.status, dewikura.Status.BAD_RECORD_SIZE)
            self.assertEqual(samples.to_pandas()["event"].tolist(), names[:len(samples)])

    def test_tasks_and_mappings(self):
        for path in (CALLS, CALLS_PIPE):
            with dewikura.open(path) as recording:
                tasks = recording.tasks.to_pandas()
                self.assertEqual(sorted(tasks), ["is_execve", "name", "offset", "pid", "ppid", "ptid", "tid", "timestamp", "type"])
                self.assertEqual(tasks["name"].tolist(), [recording.name(task).decode() for task in recording.tasks])
                self.assertIn("bash", tasks["name"].tolist())
                for field in ("is_execve", "offset", "pid", "ppid", "ptid", "tid", "timestamp", "type"):
                    self.assertEqual(tasks[field].tolist(), [getattr(task, field) for task in recording.tasks])
                mappings = recording.mappings.to_pandas()
                self.assertEqual(mappings["path"].tolist(), [recording.path(mapping).decode() for mapping in recording.mappings])
                self.assertEqual(mappings["build_id"].tolist(), [mapping.build_id.hex() for mapping in recording.mappings])
                for field in ("address", "length", "page_offset", "inode", "protection", "flags", "pid", "tid", "is_data", "misc", "type"):
                    self.assertEqual(mappings[field].tolist(), [getattr(mapping, field) for mapping in recording.mappings])
                self.assertFalse({"path_offset", "path_size", "build_id_size", "reserved"} & set(mappings))

    def test_names_that_are_not_utf_8(self):
        record = perfdata.record(3, 0, struct.pack("<ii8s", 1, 2, b"a\xffb"))
        with dewikura.from_buffer(perfdata.file(record, perfdata.attribute(event_type=1))) as recording:
            self.assertEqual(recording.tasks.to_pandas()["name"].tolist(), ["a\\xffb"])


class ReprTest(unittest.TestCase):
    def test_reprs(self):
        with dewikura.open(SEVERAL) as recording:
            self.assertEqual(repr(recording), f"<Recording: file, {SEVERAL.stat().st_size} bytes>")
            self.assertEqual((repr(recording.samples), repr(recording.samples[:3]), repr(recording.frames)), ("<Samples: 35>", "<Samples: 3>", "<Frames: 0>"))
            self.assertEqual(repr(recording.records), f"<Records: {len(recording.records)}>")
        with dewikura.open(CALLS_PIPE) as pipe:
            self.assertEqual(repr(pipe), f"<Recording: pipe, {CALLS_PIPE.stat().st_size} bytes>")
        with dewikura.open_jitdump(DUMP) as jitdump:
            self.assertEqual(repr(jitdump), f"<JitDump: {DUMP.stat().st_size} bytes>")
        self.assertEqual((repr(recording), repr(jitdump)), ("<Recording: closed>", "<JitDump: closed>"))


class JitDumpTest(unittest.TestCase):
    def test_loads(self):
        with dewikura.open_jitdump(DUMP) as jitdump:
            header = jitdump.header
            self.assertEqual((header.version, header.elf_machine, header.pid, header.timestamp, header.flags, header.byteorder),
                             (1, 62, 27149, 1795352521542614, 0, "little"))
            loads = list(jitdump.loads())
            self.assertEqual((len(loads), sum(len(load.code) for load in loads)), (29, 19936))
            self.assertEqual(max((len(load.code), load.name) for load in loads), (3032, b"JS:^normalizeString node:path:94:25"))
            records = jitdump.records()
            for record in records:
                if record.type == dewikura.JitRecordType.CODE_DEBUG_INFO:
                    for call in (jitdump.load, jitdump.move, jitdump.unwinding):
                        with self.assertRaises(dewikura.PerfDataError) as caught:
                            call(record)
                        self.assertEqual(caught.exception.status, dewikura.Status.JIT_WRONG_TYPE)
            self.assertRaises(dewikura.TruncatedError, lambda: jitdump.load(records.next_offset))
            self.assertEqual(len(jitdump.records(records[5].offset)), len(records) - 5)
            del loads

    def test_debug_info(self):
        data = DUMP.read_bytes()
        with dewikura.open_jitdump(DUMP) as jitdump:
            records = [record for record in jitdump.records() if record.type == dewikura.JitRecordType.CODE_DEBUG_INFO]
            found = [jitdump.debug_info(record) for record in records]
            self.assertEqual(found, [debug_info(data, record.offset) for record in records])
            self.assertTrue(any(len(info.entries) > 1 for info in found))
            load = next(record for record in jitdump.records() if record.type == dewikura.JitRecordType.CODE_LOAD)
            self.assertRaises(dewikura.FormatError, lambda: jitdump.debug_info(load))

    def test_growing_file(self):
        data = DUMP.read_bytes()
        with tempfile.NamedTemporaryFile() as file:
            file.write(data[:1000])
            file.flush()
            with dewikura.open_jitdump(file.name) as jitdump:
                before = jitdump.records()
                file.write(data[1000:])
                file.flush()
                jitdump.refresh()
                after = jitdump.records(before.next_offset)
            wanted = dewikura.jitdump_from_buffer(data).records()
            self.assertEqual([record.offset for record in [*before, *after]], [record.offset for record in wanted])


class ProgramTest(unittest.TestCase):
    def test_commands(self):
        self.assertEqual(command("events", str(SEVERAL)), (0, "cpu-clock: 11 samples\ntask-clock: 11 samples\npage-faults: 13 samples\n", ""))
        status, output, _ = command("samples", str(CALLS))
        with dewikura.open(CALLS) as recording:
            samples = recording.samples
            frames = [samples.frames_of(sample) for sample in samples]
        self.assertEqual((status, output.count("\n")), (0, len(samples)))
        for line, sample, chain in zip(output.splitlines(), samples, frames):
            task, cpu, time, period, *addresses = line.split(" ")
            self.assertEqual((task, cpu, int(period)), (f"{sample.pid}/{sample.tid}", "[000]", sample.period))
            self.assertEqual(int(time.replace(".", "").rstrip(":")), sample.timestamp)
            self.assertEqual([int(address, 16) for address in addresses], [sample.ip, *(frame.address for frame in chain)])
        self.assertEqual(command("loads", str(DUMP))[1].count("\n"), 29)
        self.assertEqual(command("records")[0], 1)
        for name in ("samples", "events"):
            self.assertEqual(command(name, str(DUMP)), (2, "", "dewikura: not a perf.data file or pipe\n"))

    @unittest.skipUnless(PERFLIST, "PERFLIST isn't set")
    def test_same_as_perflist(self):
        """Each recording, truncations and random changes of them: the same records as perflist, and an error where it has one."""
        paths = sorted(glob.glob(f"{TOP}/tests/recordings/*.data") + glob.glob(f"{TOP}/tests/recordings/*.pipe")) + [str(STREAM)]
        inputs = [pathlib.Path(path).read_bytes() for path in paths]
        first, stream, chance = FIRST.read_bytes(), STREAM.read_bytes(), random.Random(1)
        inputs += [data[:chance.randrange(len(data))] for data in (first, stream) for _ in range(60)]
        for _ in range(200):
            data = bytearray(chance.choice((first, stream)))
            data[chance.randrange(104, len(data))] = chance.randrange(256)
            inputs.append(bytes(data))
        for number, data in enumerate(inputs):
            for kind in dewikura.Kind:
                with self.subTest(number=number, kind=kind), tempfile.NamedTemporaryFile() as file:
                    file.write(data)
                    file.seek(0)
                    arguments = [PERFLIST, "pipe"] if kind is dewikura.Kind.PIPE else [PERFLIST, "file", file.name]
                    wanted = subprocess.run(arguments, stdin=file, capture_output=True, check=False)
                    records, error = dewikura.from_buffer(data, kind=kind).partial_records()
                    lines = "".join(f"{record_line(record)}\n" for record in records)
                    self.assertEqual((error is not None, lines.encode()), (wanted.returncode == 2, wanted.stdout))


if __name__ == "__main__":
    unittest.main()
