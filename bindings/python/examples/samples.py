import sys, dewikura
with dewikura.open(sys.argv[1]) as recording:
    samples = recording.samples.to_pandas()
    print("The ten hottest addresses:", samples["ip"].map(hex).value_counts().head(10), sep="\n")
    print("Samples by process and thread:", samples.groupby(["pid", "tid"]).size().sort_values(ascending=False), sep="\n")
    print("Samples in each millisecond:", samples.groupby(samples["timestamp"] // 10**6).size(), sep="\n")
    frames = recording.frames.to_pandas()
    print("The ten addresses in most call chains:", frames["address"].map(hex).value_counts().head(10), sep="\n")
