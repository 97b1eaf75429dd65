//! The calls that read the records of files and pipes one by one.

use super::metadata::push_accessors;
use super::sources::{SourceCall, push_sources};
use crate::language::{Call, Output, Tested};
use crate::library::Global;
use dewikura::perfdata_base::header::PerfHeader;
use dewikura::linux_perf_data::in_memory::{InMemoryReader, InMemoryRecords};
use dewikura::linux_perf_data::raw::RawData;
use dewikura::linux_perf_data::source::{PlacedSource, Source};
use dewikura::linux_perf_data::{
    Error, PerfFile, PerfFileReader, PerfFileRecord, PerfRecordIter, RecordPlace,
};
use std::io::Cursor;

/// The result of a call for the next record.
pub type Next<'a> = Result<Option<(RecordPlace, PerfFileRecord<'a>)>, Error>;

/// The metadata and the records after an opening.
pub type Opened<R> = Result<(PerfFile, R), Error>;

/// The records of an input.
trait Records {
    fn next(&mut self, perf_file: &mut PerfFile) -> Next<'_>;
}

impl<R: Source> Records for PerfRecordIter<R> {
    fn next(&mut self, perf_file: &mut PerfFile) -> Next<'_> {
        self.next_record(perf_file)
    }
}

impl Records for InMemoryRecords<'_> {
    fn next(&mut self, perf_file: &mut PerfFile) -> Next<'_> {
        self.next_record(perf_file)
    }
}

/// Whether the name of a call or the value of an option stands for a pipe, and not for a file.
pub fn is_pipe(name: &str) -> bool {
    name.ends_with("pipe")
}

/// Opens a file or a pipe.
pub fn open<C: PlacedSource>(is_pipe: bool, source: C) -> Opened<PerfRecordIter<C>> {
    let reader = match is_pipe {
        false => PerfFileReader::parse_file(Global, source)?,
        true => PerfFileReader::parse_pipe(Global, source)?,
    };
    Ok((reader.perf_file, reader.record_iter))
}

/// The call that reads a file whose recording wasn't finished, or whose end is missing.
const UNFINISHED: &str = "read-unfinished";

/// Opens the input of a call.
fn open_input<C: PlacedSource>(call: &str, source: C) -> Opened<PerfRecordIter<C>> {
    if call != UNFINISHED {
        return open(is_pipe(call), source);
    }
    let reader = PerfFileReader::parse_unfinished_file(Global, source)?;
    Ok((reader.perf_file, reader.record_iter))
}

/// Opens a file or a pipe in memory.
pub fn open_in_memory(is_pipe: bool, bytes: &[u8]) -> Opened<InMemoryRecords<'_>> {
    let reader = match is_pipe {
        false => InMemoryReader::parse_file(Global, bytes)?,
        true => InMemoryReader::parse_pipe(Global, bytes)?,
    };
    Ok((reader.perf_file, reader.records))
}

/// The metadata of a file or a pipe after its opening, or after at most this many of its records.
pub fn metadata_after(is_pipe: bool, bytes: &[u8], count: usize) -> Result<PerfFile, Error> {
    let (mut perf_file, mut records) = open(is_pipe, Cursor::new(bytes))?;
    for _ in 0..count {
        if !matches!(records.next_record(&mut perf_file), Ok(Some(_))) {
            break;
        }
    }
    Ok(perf_file)
}

/// The reading of a case. The first record has this offset.
struct Reading<'a> {
    call: Call<'a>,
    first_offset: u64,
}

impl Reading<'_> {
    /// Appends the values of a record, and whether its body isn't that of the input.
    fn push_record(&self, place: RecordPlace, record: &PerfFileRecord<'_>, out: &mut Output) {
        let shown = |number: Option<u64>| number.map_or("-".into(), |number| number.to_string());
        let (time, attr) = (
            shown(place.timestamp),
            shown(record.attr_index().map(|index| index as u64)),
        );
        let (kind, misc, body) = (record.record_type().0, record.misc(), record.body());
        write!(
            out,
            "{} {} {time} {attr} {kind} {misc} {}",
            place.offset,
            place.round,
            body.len()
        );
        let start = self
            .first_offset
            .saturating_add(place.offset)
            .saturating_add(8) as usize;
        let expected = self
            .call
            .bytes
            .get(start..start.saturating_add(body.len()))
            .unwrap_or(&[]);
        if body != RawData::Single(expected) {
            write!(out, " with another body");
        }
    }

    fn push_next(&self, next: &Next<'_>, out: &mut Output) {
        match next {
            Ok(Some((place, record))) => self.push_record(*place, record, out),
            Ok(None) => write!(out, "end"),
            Err(error) => {
                write!(out, "next: ");
                out.push_error(error);
            }
        }
    }

    /// Appends the values of the accessors that the option `of` names, and ends the line.
    fn push_values(&self, perf_file: &PerfFile, out: &mut Output) -> Tested {
        if self.call.case.has("of") {
            write!(out, " ");
            return push_accessors(&self.call, perf_file, out);
        }
        writeln!(out);
        Ok(())
    }

    /// Appends the results of the calls up to the end or the first error, and of two calls after it unless they return `Ok(None)` or
    /// `Failed` too.
    fn push_calls<I: Records>(
        &self,
        mut records: I,
        perf_file: &mut PerfFile,
        out: &mut Output,
    ) -> Tested {
        let is_end = loop {
            let next = records.next(perf_file);
            let (is_record, is_end) = (matches!(next, Ok(Some(_))), next.is_ok());
            self.push_next(&next, out);
            self.push_values(perf_file, out)?;
            if !is_record {
                break is_end;
            }
        };
        for _ in 0..2 {
            let next = records.next(perf_file);
            if !matches!(
                (&next, is_end),
                (Ok(None), true) | (Err(Error::Failed), false)
            ) {
                self.push_next(&next, out);
                writeln!(out, " later");
            }
        }
        Ok(())
    }

    /// Appends the results of an opening and of the calls after it.
    fn push_opened<I: Records>(&self, opened: Opened<I>, out: &mut Output) -> Tested {
        let (mut perf_file, records) = match opened {
            Ok(opened) => opened,
            Err(error) => {
                write!(out, "open: ");
                out.push_result(&Err::<(), _>(error));
                return Ok(());
            }
        };
        if self.call.case.has("of") {
            write!(out, "open:");
            self.push_values(&perf_file, out)?;
        }
        if let Some(name) = self.call.case.option("other") {
            perf_file = metadata_after(is_pipe(name), self.call.argument(1)?, 0)?;
        }
        self.push_calls(records, &mut perf_file, out)
    }
}

impl SourceCall for Reading<'_> {
    fn push<C: PlacedSource>(&self, source: C, out: &mut Output) -> Tested {
        self.push_opened(open_input(self.call.case.call, source), out)
    }
}

/// The offset of the data section of a file; 0 if its header can't be read.
fn data_offset(bytes: &[u8]) -> u64 {
    PerfHeader::parse_from(&mut Cursor::new(bytes)).map_or(0, |header| header.data_section.offset)
}

/// Reads the records of an input, one line a record. The line of an error begins with `open:` if the opening returns it, else with
/// `next:`. The results in memory are appended if they differ.
///
/// With the option `of=NAMES` each line ends with the values of these accessors after its call. With `other=file` or `other=pipe` the
/// calls get the `PerfFile` of the second input.
pub fn push_reading(call: &Call<'_>, out: &mut Output) -> Tested {
    let is_unfinished = call.case.call == UNFINISHED;
    let opened = open_in_memory(is_pipe(call.case.call), call.bytes);
    let first_offset = match &opened {
        _ if is_unfinished => data_offset(call.bytes),
        Ok((_, records)) => records.first_record_offset(),
        Err(_) => 0,
    };
    let reading = Reading {
        call: *call,
        first_offset,
    };
    let mut read = Output::default();
    push_sources(call, &reading, &mut read)?;
    out.text.push_str(&read.text);
    if call.is_plain() && !is_unfinished {
        let mut in_memory = Output::default();
        reading.push_opened(opened, &mut in_memory)?;
        out.append_other(&read, "in memory", &in_memory);
    }
    Ok(())
}
