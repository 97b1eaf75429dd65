//! `count_samples PATH`: prints the number of samples of each event of a perf.data file, and that of all other
//! records.

use linux_perf_data::linux_perf_event_reader::RecordType;
use linux_perf_data::{AttributeDescription, Error, PerfFileReader, PerfFileRecord};
use std::fs::File;
use std::io::BufReader;

fn count(path: &str) -> Result<(), Error> {
    let reader = BufReader::new(File::open(path)?);
    let PerfFileReader {
        mut perf_file,
        mut record_iter,
    } = PerfFileReader::parse_file(reader)?;
    let mut samples = vec![0_u64; perf_file.event_attributes().len()];
    let mut others = 0_u64;
    while let Some(record) = record_iter.next_record(&mut perf_file)? {
        match record {
            PerfFileRecord::EventRecord { attr_index, record }
                if record.record_type == RecordType::SAMPLE =>
            {
                samples[attr_index] += 1;
            }
            _ => others += 1,
        }
    }
    let names = perf_file
        .event_attributes()
        .iter()
        .map(AttributeDescription::name);
    for (name, count) in names.zip(samples) {
        println!("{}: {count}", name.unwrap_or("[unknown]"));
    }
    println!("others: {others}");
    Ok(())
}

fn main() -> Result<(), Error> {
    match std::env::args().nth(1) {
        Some(path) => count(&path),
        None => panic!("usage: count_samples PATH"),
    }
}
