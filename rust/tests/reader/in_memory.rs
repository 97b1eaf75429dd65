//! The calls over slices: the bytes after each record, entries of records, and bodies that outlive their calls.

use super::reading::{is_pipe, open_in_memory};
use crate::language::{Call, Output, Tested};
use crate::library::Global;
use dewikura::linux_perf_data::in_memory::InMemoryRecords;
use dewikura::linux_perf_data::in_memory::entries::RecordEntry;
use dewikura::linux_perf_data::{Error, PerfFile, PerfFileReader};

/// Prints the number of bytes that are left in a pipe after its opening and after each record.
pub fn push_bytes_left(call: &Call<'_>, out: &mut Output) {
    let mut rest = call.bytes;
    match PerfFileReader::parse_pipe(Global, &mut rest) {
        Ok(reader) => {
            let (mut perf_file, mut records) = (reader.perf_file, reader.record_iter);
            out.push_line(&records.get_ref().len());
            while let Ok(Some(_)) = records.next_record(&mut perf_file) {
                out.push_line(&records.get_ref().len());
            }
        }
        Err(error) => out.push_result(&Err::<(), Error>(error)),
    }
}

/// Appends the number of the entries of the next records, two entries, and the offset and the round of the record after them.
fn push_two_entries(perf_file: &mut PerfFile, records: &mut InMemoryRecords<'_>, out: &mut Output) {
    let unwritten = RecordEntry {
        offset: 0,
        body_offset: 0,
        body_size: 0,
        round: 0,
        timestamp: 0,
        attr_index: 0,
        record_type: 0,
        misc: 7,
        has_timestamp: 0,
        has_attr: 0,
    };
    let mut entries = [unwritten; 2];
    out.push_line(&records.read_entries(perf_file, &mut entries));
    out.push_line(&entries);
    let next = records.next_record(perf_file);
    match next.map(|next| next.map(|(place, _)| (place.offset, place.round))) {
        Ok(next) => out.push_line(&next),
        Err(error) => out.push_result(&Err::<(), Error>(error)),
    }
}

/// Appends the bodies of two records after both are read.
fn push_two_bodies(
    perf_file: &mut PerfFile,
    records: &mut InMemoryRecords<'_>,
    out: &mut Output,
) -> Tested {
    let first = records.next_record(perf_file);
    let second = records.next_record(perf_file);
    let (Ok(Some((_, first))), Ok(Some((_, second)))) = (first, second) else {
        return Err("fewer than two records".into());
    };
    out.push_line(&first.body());
    out.push_line(&second.body());
    Ok(())
}

/// Prints the first entries or the first two bodies of an input in memory, of a file or with the option `format=pipe` of a pipe.
pub fn push_in_memory(call: &Call<'_>, out: &mut Output) -> Tested {
    let is_pipe = is_pipe(call.case.option("format").unwrap_or(""));
    match open_in_memory(is_pipe, call.bytes) {
        Ok((mut perf_file, mut records)) => match call.case.call {
            "entries" => push_two_entries(&mut perf_file, &mut records, out),
            _ => push_two_bodies(&mut perf_file, &mut records, out)?,
        },
        Err(error) => out.push_result(&Err::<(), Error>(error)),
    }
    Ok(())
}
