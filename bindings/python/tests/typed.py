"""Calls of the package as a caller writes them, for `mypy --strict`. It isn't run."""

from typing import List, Optional

import dewikura


def hottest(path: str) -> List[str]:
    profile = dewikura.profile(path, unwind=True, inline=True, focus="main", time="1.5,2.5", pid=[1, 2])
    difference = profile - dewikura.profile("old.data")
    print(profile.to_pandas().shape, len(profile.samples.time), profile.callers("f")[0].share, difference.top(3)[0].old)
    return [f"{row.self_share:7.2%} {row.function}" for row in profile.top(20)] + [profile.flame_graph(), profile.html()]


def first_time(path: str) -> Optional[int]:
    with dewikura.open(path) as recording:
        for record in recording.records[:3]:
            if record.type == dewikura.RecordType.SAMPLE:
                return record.timestamp
    return None


def symbols_of(path: str) -> List[str]:
    symbols = dewikura.symbols(path)
    with dewikura.open("perf.data") as recording:
        names: List[Optional[str]] = recording.stacks.functions(symfs="/srv")
    return [symbols.name(symbol).decode() for symbol in symbols if symbol.size > 0] + [name for name in names if name is not None]


def samples_so_far(path: str) -> int:
    count = 0
    with dewikura.follow(path, page_size=100, wait=1) as follower:
        for page in follower:
            count += sum(record.type == dewikura.RecordType.SAMPLE and len(page.body(record)) > 0 for record in page)
        print(follower.kind, follower.byteorder, [attribute.name for attribute in follower.metadata.attributes])
    return count
