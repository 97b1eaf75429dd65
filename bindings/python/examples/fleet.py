"""`fleet.py [--scheduler tcp://HOST:PORT] [--functions] [--html FILE] RECORDING..` counts the samples of many recordings by event and by mapped
file, with Dask; with `--functions` by function, as perffold names them. `--html` writes a page with the functions of all recordings.

Each recording is one task: a worker maps its file, or profiles it, and returns counts. Without a scheduler, the tasks run in processes of this
machine. A recording with an error is a row with the counts before the error."""

import argparse
import collections
import html

import dewikura


def counts_of(recording, stacks):
    """The number of samples of each event and file: that of the innermost frame."""
    names = [attribute.name or "unnamed" for attribute in recording.attributes]
    files = [recording.path(mapping).decode("utf-8", "replace") for mapping in stacks.mappings]
    counts = collections.Counter()
    for stack in stacks:
        mapping = next((frame.mapping for frame in stacks.frames_of(stack)[:1]), None)
        counts[names[stack.attr_index], "[unknown]" if mapping is None else files[mapping]] += 1
    return counts


def count(path):
    """The counts of a recording, and its error, or None."""
    try:
        with dewikura.open(path) as recording:
            stacks, error = recording.partial_stacks()
            return path, counts_of(recording, stacks), error and str(error)
    except (dewikura.PerfDataError, OSError) as error:
        return path, collections.Counter(), str(error)


def count_functions(path):
    """The samples of each function of a recording, as its innermost one and in all, and the recording's error, or None."""
    try:
        profile = dewikura.profile(path, partial=True)
    except (dewikura.DewikuraError, OSError) as error:
        return path, 0, {}, str(error)
    return path, profile.total(), {row.function: (row.self, row.total) for row in profile.top(None)}, profile.error


def join(rows):
    """The samples of all recordings, and for each function its own samples, those in all and the number of recordings that have it."""
    everything, functions = 0, collections.defaultdict(lambda: [0, 0, 0])
    for _, samples, counts, _ in rows:
        everything += samples
        for name, (own, total) in counts.items():
            functions[name] = [functions[name][0] + own, functions[name][1] + total, functions[name][2] + 1]
    return everything, sorted(((name, *numbers) for name, numbers in functions.items()), key=lambda row: (-row[1], -row[2], row[0]))


def page(rows):
    """A page with a table of the functions of all recordings, and one of the recordings."""
    everything, functions = join(rows)
    shares = "".join(f"<tr><td>{own / (everything or 1):.2%}<td>{total / (everything or 1):.2%}<td>{recordings}<td>{html.escape(name)}\n"
                     for name, own, total, recordings in functions[:200])
    paths = "".join(f"<tr><td>{samples}<td>{html.escape(path)}<td>{html.escape(error or '')}\n" for path, samples, _, error in rows)
    return ("<!DOCTYPE html><meta charset='utf-8'><title>Functions of a fleet</title><style>body { font: 14px sans-serif; margin: 2em }"
            " td, th { text-align: left; padding: 0 1em 0 0 } td:nth-child(-n+2) { font-variant-numeric: tabular-nums }</style>\n"
            f"<h1>{everything} samples of {len(rows)} recordings</h1>\n<table><tr><th>self<th>total<th>recordings<th>function\n{shares}</table>\n"
            f"<h2>Recordings</h2>\n<table><tr><th>samples<th>recording<th>error\n{paths}</table>\n")


def print_functions(rows):
    everything, functions = join(rows)
    for path, samples, _, error in rows:
        print(f"{path}: {samples} samples{'' if error is None else f', {error}'}")
    for name, own, total, recordings in functions[:30]:
        print(f"{own / (everything or 1):7.2%} {total / (everything or 1):7.2%} {recordings:5}  {name}")


def main():
    import dask.bag

    parser = argparse.ArgumentParser(description=__doc__)
    parser.add_argument("--scheduler", help="the address of a Dask scheduler")
    parser.add_argument("--functions", action="store_true", help="count by function, as perffold names them")
    parser.add_argument("--html", metavar="FILE", help="write a page with the functions of all recordings")
    parser.add_argument("recordings", nargs="+")
    arguments = parser.parse_args()
    by_function = arguments.functions or arguments.html is not None
    bag = dask.bag.from_sequence(arguments.recordings).map(count_functions if by_function else count)
    if arguments.scheduler:
        from dask.distributed import Client

        with Client(arguments.scheduler):
            rows = bag.compute()
    else:
        rows = bag.compute(scheduler="processes")
    if arguments.html:
        with open(arguments.html, "w", encoding="utf-8") as file:
            file.write(page(rows))
    if by_function:
        print_functions(rows)
        return
    total = collections.Counter()
    for path, counts, error in rows:
        print(f"{path}: {sum(counts.values())} samples{'' if error is None else f', then {error}'}")
        total += counts
    for (event, file), number in sorted(total.items(), key=lambda item: -item[1]):
        print(f"{number:10} {event} {file}")


if __name__ == "__main__":
    main()
