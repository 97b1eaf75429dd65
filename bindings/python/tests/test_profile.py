"""Tests of profiles, by perffold and over the recordings of the repository: sums are those of folded lines. They run where numpy and perffold are."""

import collections
import importlib.util
import os
import pathlib
import subprocess
import tempfile
import unittest

import dewikura
from dewikura import profiles

TOP = pathlib.Path(__file__).resolve().parents[3]
RECORDINGS = TOP / "tests/recordings"
CHAIN, EVENTS, THREADS, WEIGHT = (RECORDINGS / f"{name}.data" for name in ("chain", "events", "threads", "weight"))
HAS_NUMPY, HAS_PANDAS = (importlib.util.find_spec(name) is not None for name in ("numpy", "pandas"))
# Names that no file of this machine changes.
PLAIN = {"symbols": False}
PLAIN_OPTIONS = ("--no-symbols",)


def perffold():
    try:
        return profiles.find_program("perffold")
    except dewikura.DewikuraError:
        return None


def folded(path, *options):
    """The folded lines: the thread and the names from the root on, with their counts."""
    text = subprocess.run([perffold(), "--format=folded", *PLAIN_OPTIONS, *options, path], capture_output=True, check=True).stdout.decode()
    lines = collections.Counter()
    for line in text.splitlines():
        stack, count = line.rsplit(" ", 1)
        lines[tuple(stack.split(";"))] += int(count)
    return lines


def lines_of(profile, counts):
    """The folded lines of a profile."""
    lines = collections.Counter()
    for thread, stack, count in zip(profile.samples.thread, profile.samples.stack, counts):
        lines[(profile.threads.name[thread].replace(" ", "_"), *reversed(profile.names(int(stack))))] += int(count)
    return lines


@unittest.skipUnless(HAS_NUMPY and perffold(), "needs numpy and perffold")
class ProfileTest(unittest.TestCase):
    def test_samples_are_those_of_the_lines(self):
        for path, arguments, options in ((CHAIN, {}, ()), (EVENTS, {"all_events": True}, ("--all-events",)),
                                         (EVENTS, {"event": "sched:sched_switch"}, ("--event=sched:sched_switch",)),
                                         (THREADS, {"unwind": False}, ("--no-unwind",))):
            profile = dewikura.profile(path, **PLAIN, **arguments)
            self.assertEqual(lines_of(profile, [1] * len(profile)), folded(path, *options))
            self.assertEqual(lines_of(profile, profile.samples.weight), folded(path, "--weight=period", *options))
            self.assertEqual(profile.total(), len(profile))
            self.assertEqual(dewikura.profile(path, weight="period", **PLAIN, **arguments).total(), profile.samples.weight.sum())

    def test_functions(self):
        profile, lines = dewikura.profile(CHAIN, **PLAIN), folded(CHAIN)
        own, total = collections.Counter(), collections.Counter()
        callers, callees = collections.defaultdict(collections.Counter), collections.defaultdict(collections.Counter)
        for (_, *names), count in lines.items():
            own[names[-1]] += count
            total.update({name: count for name in set(names)})
            for caller, callee in set(zip(names, names[1:])):
                callers[callee][caller] += count
                callees[caller][callee] += count
        rows = profile.top(None)
        self.assertEqual({row.function: (row.self, row.total) for row in rows}, {name: (own[name], total[name]) for name in total})
        self.assertEqual([row.self for row in rows], sorted((row.self for row in rows), reverse=True))
        self.assertEqual(profile.top(2), rows[:2])
        self.assertAlmostEqual(sum(row.self_share for row in rows), 1)
        by_total = profile.top(None, by="total")
        self.assertEqual([row.total for row in by_total], sorted((row.total for row in rows), reverse=True))
        self.assertRaises(ValueError, profile.top, by="name")
        for name in total:
            self.assertEqual({row.function: row.samples for row in profile.callers(name)}, dict(callers[name]))
            self.assertEqual({row.function: row.samples for row in profile.callees(name)}, dict(callees[name]))
        self.assertEqual(profile.callers("no function"), [])

    def test_threads(self):
        self.assertEqual(set(dewikura.profile(THREADS, **PLAIN).threads.pid), {-1})
        profile = dewikura.profile(THREADS, threads_by="tid", **PLAIN)
        with dewikura.open(THREADS) as recording:
            samples = [(sample.pid, sample.tid) for sample in recording.samples]
        found = zip(profile.threads.pid[profile.samples.thread].tolist(), profile.threads.tid[profile.samples.thread].tolist())
        self.assertEqual(collections.Counter(found), collections.Counter(samples))
        self.assertRaises(ValueError, dewikura.profile, THREADS, threads_by="cpu")

    def test_times(self):
        profile = dewikura.profile(CHAIN, **PLAIN)
        with dewikura.open(CHAIN) as recording:
            times = [sample.timestamp for sample in recording.samples_by_time()]
        self.assertEqual(profile.samples.time.tolist(), times)
        first, last = times[len(times) // 4], times[len(times) // 2]
        part = dewikura.profile(CHAIN, time=",".join(f"{time // 10**9}.{time % 10**9:09}" for time in (first, last)), **PLAIN)
        self.assertEqual(part.samples.time.tolist(), [time for time in times if first <= time <= last])

    def test_focus(self):
        profile = dewikura.profile(CHAIN, **PLAIN)
        name = profile.top(1)[0].function
        pattern = "".join(f"[{char}]" if char.isalnum() else "." for char in name)
        focused = dewikura.profile(CHAIN, focus=pattern, **PLAIN)
        ignored = dewikura.profile(CHAIN, ignore=pattern, **PLAIN)
        self.assertEqual(len(focused) + len(ignored), len(profile))
        self.assertTrue(0 < len(focused))
        self.assertEqual(len(focused.samples.time), len(focused.samples.weight))

    def test_comparison(self):
        profile = dewikura.profile(CHAIN, **PLAIN)
        self.assertEqual({row.difference for row in (profile - profile).top(None)}, {0.0})
        name = profile.top(1)[0].function
        rows = {row.function: row for row in (profile - dewikura.profile(THREADS, **PLAIN)).top(None)}
        self.assertEqual(rows[name].new, profile.top(1)[0].self)
        self.assertAlmostEqual(sum(row.difference for row in rows.values()), 0)
        self.assertIn("<table>", (profile - profile)._repr_html_())

    def test_pictures(self):
        profile = dewikura.profile(CHAIN, **PLAIN)
        self.assertIn("<svg", profile.flame_graph()[:1000])
        self.assertTrue(profile.html().startswith("<!DOCTYPE html>"))
        shown = profile._repr_html_()
        self.assertTrue(shown.startswith('<iframe sandbox="allow-scripts"') and "<script" not in shown)

    def test_errors(self):
        with self.assertRaisesRegex(dewikura.DewikuraError, "^perffold: /nowhere/perf.data: "):
            dewikura.profile("/nowhere/perf.data")
        with self.assertRaisesRegex(dewikura.DewikuraError, "no event 'none'"):
            dewikura.profile(CHAIN, event="none")
        data = CHAIN.read_bytes()
        with tempfile.NamedTemporaryFile(suffix=".data") as file:
            file.write(data[:len(data) // 2])
            file.flush()
            self.assertRaises(dewikura.DewikuraError, dewikura.profile, file.name, **PLAIN)
            part = dewikura.profile(file.name, partial=True, **PLAIN)
        self.assertTrue(0 < len(part) <= len(dewikura.profile(CHAIN, **PLAIN)))
        self.assertIn("perffold: ", part.messages)

    def test_progress(self):
        calls, messages = [], []
        reading, writing = os.pipe()
        with os.fdopen(reading, "rb", buffering=0) as stream, os.fdopen(writing, "wb") as file:
            file.write(b"\r4096 of 8192 bytes, 4096 records\r8000 bytes, 8192 records\r\nperffold: a message\r\n")
            file.close()
            profiles._read_messages(stream, lambda *numbers: calls.append(numbers), messages)
        self.assertEqual(calls, [(4096, 8192, 4096), (8000, None, 8192)])
        self.assertEqual(b"".join(messages).split(), b"perffold: a message".split())
        self.assertEqual(len(dewikura.profile(CHAIN, progress=lambda *_: None, **PLAIN)), len(dewikura.profile(CHAIN, **PLAIN)))

    @unittest.skipUnless(HAS_PANDAS, "needs pandas")
    def test_pandas(self):
        profile = dewikura.profile(CHAIN, **PLAIN)
        frame = profile.to_pandas()
        self.assertEqual(frame["time"].tolist(), profile.samples.time.tolist())
        counts = frame["function"].value_counts().to_dict()
        self.assertEqual(counts, {row.function: row.self for row in profile.top(None) if row.self})
        self.assertEqual(set((profile - profile).to_pandas().columns), set(profiles.Difference._fields))

    def test_find_program(self):
        with tempfile.TemporaryDirectory() as folder:
            before, os.environ["DEWIKURA_PROGRAMS"] = os.environ.get("DEWIKURA_PROGRAMS"), folder
            path, os.environ["PATH"] = os.environ["PATH"], folder
            try:
                self.assertRaisesRegex(dewikura.DewikuraError, "perffold isn't installed", dewikura.profile, CHAIN)
            finally:
                os.environ["PATH"] = path
                os.environ.pop("DEWIKURA_PROGRAMS")
                if before is not None:
                    os.environ["DEWIKURA_PROGRAMS"] = before


if __name__ == "__main__":
    unittest.main()
