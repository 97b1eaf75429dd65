//! `read_pipe`: reads a perf.data pipe from standard input, and prints the types of its records with their
//! counts.

use linux_perf_data::{Error, PerfFileReader, PerfFileRecord};
use std::collections::BTreeMap;

fn main() -> Result<(), Error> {
    let stdin = std::io::stdin().lock();
    let PerfFileReader {
        mut perf_file,
        mut record_iter,
    } = PerfFileReader::parse_pipe(stdin)?;
    for attribute in perf_file.event_attributes() {
        println!(
            "event {:?} with {} ids",
            attribute.name,
            attribute.event_ids.len()
        );
    }
    let mut counts = BTreeMap::new();
    while let Some(record) = record_iter.next_record(&mut perf_file)? {
        let name = match record {
            PerfFileRecord::EventRecord { record, .. } => format!("{:?}", record.record_type),
            PerfFileRecord::UserRecord(record) => format!("{:?}", record.record_type),
        };
        *counts.entry(name).or_insert(0_u64) += 1;
    }
    for (name, count) in counts {
        println!("{name}: {count}");
    }
    Ok(())
}
