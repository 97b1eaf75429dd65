//! `time_records count|parse file|pipe PATH`: reads all records of a perf.data file or pipe, parses them with
//! `parse`, and prints their number and a sum over them. `bench/run` times it.

use linux_perf_data::linux_perf_event_reader::EventRecord;
use linux_perf_data::{Error, PerfFile, PerfFileReader, PerfFileRecord, PerfRecordIter};
use std::fs::File;
use std::io::{BufReader, Read};

// A number of a parsed record.
fn number_of(record: &EventRecord<'_>) -> u64 {
    match record {
        EventRecord::Sample(sample) => {
            let frames = sample.callchain.map_or(0, |chain| chain.len() as u64);
            let ip = sample.ip.unwrap_or(0);
            ip.wrapping_add(sample.period.unwrap_or(0))
                .wrapping_add(frames)
        }
        EventRecord::Mmap2(mmap) => mmap.address,
        EventRecord::Mmap(mmap) => mmap.address,
        EventRecord::Comm(comm) => comm.name.len() as u64,
        _ => 1,
    }
}

fn read<R: Read>(
    parses: bool,
    file: &mut PerfFile,
    records: &mut PerfRecordIter<R>,
) -> Result<(u64, u64), Error> {
    let (mut count, mut sum) = (0_u64, 0_u64);
    while let Some(record) = records.next_record(file)? {
        count += 1;
        if parses && let PerfFileRecord::EventRecord { record, .. } = record {
            sum = sum.wrapping_add(record.parse().map_or(1, |record| number_of(&record)));
        }
    }
    Ok((count, sum))
}

fn main() -> Result<(), Error> {
    let arguments: Vec<String> = std::env::args().skip(1).collect();
    let [how, kind, path] = arguments.as_slice() else {
        panic!("usage: time_records count|parse file|pipe PATH");
    };
    let input = BufReader::new(File::open(path)?);
    let mut reader = match kind.as_str() {
        "pipe" => PerfFileReader::parse_pipe(input)?,
        _ => PerfFileReader::parse_file(input)?,
    };
    let parses = how == "parse";
    let (count, sum) = read(parses, &mut reader.perf_file, &mut reader.record_iter)?;
    println!("{count} records, sum {sum}");
    Ok(())
}
