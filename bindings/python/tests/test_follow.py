"""Tests of `dewikura.follow`: its pages have the records of a whole recording, however the bytes come, with their bodies, times, errors and metadata."""

import glob
import importlib.util
import io
import os
import pathlib
import subprocess
import sys
import tempfile
import threading
import unittest

import dewikura

TOP = pathlib.Path(__file__).resolve().parents[3]
SEVERAL = TOP / "tests/recordings/several.data"
SEVERAL_PIPE = TOP / "tests/recordings/several.pipe"
CALLS_PIPE = TOP / "tests/recordings/calls.pipe"
sys.path.insert(0, str(TOP / "tests"))
import perfdata
HAS_PANDAS = importlib.util.find_spec("pandas") is not None


class Pieces:
    """A file object that returns pieces of these sizes, in turn."""

    def __init__(self, data, *sizes):
        self.file, self.sizes, self.calls = io.BytesIO(data), sizes, 0

    def read(self, size):
        self.calls += 1
        return self.file.read(min(size, self.sizes[self.calls % len(self.sizes)]))


def rows(records):
    """The fields of records that are the same in a page and in a whole recording."""
    return [(record.offset, record.body_size, record.round, record.timestamp, record.attr_index, record.type, record.misc) for record in records]


def followed(source, **options):
    """The rows and bodies of all pages, the error, and the follower."""
    found, bodies, error = [], [], None
    follower = dewikura.follow(source, **options)
    try:
        for page in follower:
            found += rows(page)
            bodies += [bytes(page.body(record)) for record in page]
    except dewikura.PerfDataError as raised:
        error = raised.status, raised.record_count
    return found, bodies, error, follower


class FollowTest(unittest.TestCase):
    def compare(self, path, source, **options):
        with dewikura.open(path) as recording:
            records, error = recording.partial_records()
            found, bodies, found_error, follower = followed(source, **options)
            self.assertEqual(found, rows(records), path)
            self.assertEqual(bodies, [bytes(recording.body(record)) for record in records], path)
            self.assertEqual(found_error, error and (error.status, error.record_count), path)
            with follower:
                self.assertEqual((follower.kind, follower.byteorder), (recording.kind, recording.byteorder))
                # What comes before the records of a file doesn't say which section has the ids.
                if error is None and (follower.kind is dewikura.Kind.PIPE or source is path):
                    self.assertEqual([attribute.ids for attribute in follower.metadata.attributes], [attribute.ids for attribute in recording.attributes])

    def test_recordings(self):
        for path in glob.glob(str(TOP / "tests/recordings/*.data")) + glob.glob(str(TOP / "tests/recordings/*.pipe")):
            with open(path, "rb") as file:
                data = file.read()
            self.compare(path, path)
            self.compare(path, io.BytesIO(data), page_size=7)
            self.compare(path, Pieces(data, 1000, 1, 17), page_size=1)

    def test_made(self):
        with tempfile.TemporaryDirectory() as folder:
            subprocess.run([sys.executable, "-B", TOP / "tests/make_chunked", folder], check=True)
            for path in glob.glob(f"{folder}/*"):
                with open(path, "rb") as file:
                    data = file.read()
                self.compare(path, path, page_size=3)
                self.compare(path, Pieces(data, 1, 2, 40), page_size=4)

    def test_metadata(self):
        with dewikura.open(SEVERAL) as recording, dewikura.follow(SEVERAL) as follower:
            self.assertEqual(follower.metadata.attributes, recording.attributes)
            self.assertEqual(follower.metadata.hostname, recording.hostname)
        with dewikura.open(CALLS_PIPE) as recording, dewikura.follow(CALLS_PIPE) as follower:
            self.assertEqual(follower.metadata.attributes, recording.attributes)
            self.assertEqual(follower.metadata.cmdline, recording.cmdline)
            self.assertEqual(list(follower.metadata.records), [])

    def test_late_metadata(self):
        """An attribute and a feature among the records count once their page has come."""
        first, late = (perfdata.record(64, 0, perfdata.attribute(1 << 16, 1 << 18) + perfdata.u64s(number)) for number in (1, 2))
        sample = perfdata.record(9, 2, perfdata.u64s(2))
        name = perfdata.record(80, 0, perfdata.u64s(3) + perfdata.pack("I", 5) + b"host\0")
        follower = dewikura.follow(io.BytesIO(perfdata.pipe(first, sample, late, name, sample)))
        self.assertEqual([len(follower.metadata.attributes), follower.metadata.hostname], [1, None])
        self.assertEqual([[record.attr_index for record in page] for page in follower], [[0, None], [None, 1]])
        self.assertEqual([len(follower.metadata.attributes), follower.metadata.hostname], [2, "host"])

    def test_live_pipe(self):
        """A page comes before the writer goes on."""
        data = SEVERAL_PIPE.read_bytes()
        reading, writing = os.pipe()
        with open(reading, "rb") as source, open(writing, "wb", buffering=0) as sink:
            follower = dewikura.follow(source)
            sink.write(data[:8000])
            found = rows(next(follower))
            self.assertGreater(len(found), 0)
            writer = threading.Thread(target=lambda: (sink.write(data[8000:]), sink.close()))
            writer.start()
            for page in follower:
                found += rows(page)
            writer.join()
        with dewikura.open(SEVERAL_PIPE) as recording:
            self.assertEqual(found, rows(recording.records))

    def test_growing_file(self):
        """perf writes the header of a file again at its end: until then it has no size of records, and zeros may follow them."""
        data = SEVERAL.read_bytes()
        with dewikura.open(SEVERAL) as recording:
            wanted = rows(recording.records)
        start, size = (int.from_bytes(data[at:at + 8], "little") for at in (40, 48))
        cut, end = start + size // 2, start + size
        unfinished = data[:48] + bytes(8) + data[56:]
        with tempfile.TemporaryDirectory() as folder:
            path = pathlib.Path(folder, "perf.data")
            path.write_bytes(unfinished[:cut])
            with dewikura.follow(path) as follower:
                found = [row for page in follower for row in rows(page)]
                self.assertEqual(found, wanted[:len(found)])
            with dewikura.follow(path, wait=0.01) as follower:
                found = rows(next(follower))
                with open(path, "r+b", buffering=0) as file:
                    file.seek(cut)
                    file.write(unfinished[cut:end] + bytes(64))
                    found += rows(next(follower))
                    file.seek(0)
                    file.write(data)
                for page in follower:
                    found += rows(page)
            self.assertEqual(found, wanted)

    def test_errors(self):
        data = SEVERAL.read_bytes()
        with self.assertRaises(dewikura.FormatError):
            next(dewikura.follow(io.BytesIO(b"neither a file nor a pipe")))
        with self.assertRaises(dewikura.TruncatedError):
            next(dewikura.follow(io.BytesIO(data[:50])))
        _, _, error, _ = followed(io.BytesIO(data[:3000]))
        self.assertEqual(error[0], dewikura.Status.TRUNCATED_RECORD)
        with self.assertRaises(dewikura.TruncatedError):
            next(dewikura.follow(io.BytesIO(SEVERAL_PIPE.read_bytes()[:100])))
        self.assertEqual(list(dewikura.follow(io.BytesIO(SEVERAL_PIPE.read_bytes()[:-1])))[0][0].offset, 0)

    def test_close(self):
        follower = dewikura.follow(SEVERAL, page_size=1)
        next(follower)
        follower.close()
        self.assertEqual(list(follower), [])

    @unittest.skipUnless(HAS_PANDAS, "pandas isn't installed")
    def test_pandas(self):
        import pandas

        with dewikura.open(SEVERAL) as recording, dewikura.follow(SEVERAL, page_size=10) as follower:
            frame = pandas.concat([page.to_pandas() for page in follower], ignore_index=True)
            wanted = recording.records.to_pandas()
        self.assertEqual(frame["timestamp"].tolist(), wanted["timestamp"].tolist())
        self.assertEqual(frame["event"].astype(str).tolist(), wanted["event"].astype(str).tolist())


if __name__ == "__main__":
    unittest.main()
