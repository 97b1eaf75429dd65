import sys, numpy, dewikura
with dewikura.open(sys.argv[1]) as recording:
    records = recording.records.to_numpy()
    samples = records[records["type"] == dewikura.RecordType.SAMPLE]
    events, counts = numpy.unique(samples["attr_index"], return_counts=True)
    for i in counts.argsort()[::-1][:10]:
        print(f"{counts[i]:8} {recording.attributes[events[i]].name}")
    for count, start in zip(*numpy.histogram(samples["timestamp"], bins=20)):
        print(f"{start / 1e9:16.6f} {'#' * int(60 * count / len(samples))}")
