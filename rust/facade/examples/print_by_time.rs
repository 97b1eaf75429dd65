//! `print_by_time PATH`: prints the records of a perf.data file by time, with what is known of each.

use linux_perf_data::linux_perf_event_reader::EventRecord;
use linux_perf_data::{PerfFileReader, PerfFileRecord, UserRecord};
use std::fs::File;
use std::io::{BufReader, BufWriter, Write};

type AnyError = Box<dyn std::error::Error>;

fn print(path: &str, out: &mut impl Write) -> Result<(), AnyError> {
    let file = File::open(path)?;
    let PerfFileReader {
        mut perf_file,
        mut record_iter,
    } = PerfFileReader::parse_file(BufReader::new(file))?;
    while let Some(record) = record_iter.next_record(&mut perf_file)? {
        match record {
            PerfFileRecord::EventRecord { attr_index, record } => {
                let attribute = &perf_file.event_attributes()[attr_index];
                let name = attribute.name().unwrap_or("[unknown]");
                let common = record.common_data()?;
                let time = record.timestamp().unwrap_or(0);
                write!(out, "{time:016} {name} {:?} ", record.record_type)?;
                write!(
                    out,
                    "{:?}/{:?} cpu {:?} ",
                    common.pid, common.tid, common.cpu
                )?;
                match record.parse()? {
                    EventRecord::Sample(sample) => {
                        let frames = sample.callchain.map_or(0, |chain| chain.len());
                        writeln!(out, "ip {:x?} {frames} frames", sample.ip)?;
                    }
                    EventRecord::Comm(comm) => {
                        let name = comm.name.as_slice();
                        writeln!(out, "{}", String::from_utf8_lossy(&name))?;
                    }
                    EventRecord::Mmap2(mmap) => {
                        let path = mmap.path.as_slice();
                        let end = mmap.address.wrapping_add(mmap.length);
                        let path = String::from_utf8_lossy(&path);
                        writeln!(out, "{:x}-{end:x} {path}", mmap.address)?;
                    }
                    other => writeln!(out, "{other:?}")?,
                }
            }
            PerfFileRecord::UserRecord(record) => match record.parse()? {
                UserRecord::ThreadMap(map) => {
                    let threads: Vec<u64> = map.iter().map(|thread| thread.tid).collect();
                    writeln!(out, "threads {threads:?}")?;
                }
                UserRecord::Raw(raw) => {
                    writeln!(out, "{:?} of {} bytes", raw.record_type, raw.data.len())?;
                }
                _ => writeln!(out, "{:?}", record.record_type)?,
            },
        }
    }
    Ok(())
}

fn main() -> Result<(), AnyError> {
    let path = std::env::args().nth(1).ok_or("usage: print_by_time PATH")?;
    let mut out = BufWriter::new(std::io::stdout().lock());
    let result = print(&path, &mut out);
    out.flush()?;
    result
}
