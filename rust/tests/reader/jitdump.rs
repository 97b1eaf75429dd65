//! Jitdump files: their header, their records and their reader.

use super::steps::{Step, steps};
use crate::language::{Call, Output, Tested};
use crate::library::{self, Global};
use dewikura::perfdata_base::raw::{Endianness, FileOrder, RawData};
use dewikura::perfdata_base::source::Script;
use dewikura::perfdata_jit::*;
use std::io;

type Reader = JitDumpReader<Script>;

/// Makes the call of a case, if this module has it.
pub fn call<T: FileOrder>(call: &Call<'_>, out: &mut Output) -> Tested<bool> {
    let bytes = call.raw();
    match call.case.call {
        "JitDumpHeader::parse" => match JitDumpHeader::parse(bytes) {
            Ok(header) => writeln!(out, "{header:?}\n{:?}", header.endian()),
            Err(error) => push_jit_error(call, out, &error),
        },
        "JitDumpHeader::parse_after_magic" => {
            let magic = match call.endian {
                Endianness::LittleEndian => *b"DTiJ",
                Endianness::BigEndian => *b"JiTD",
            };
            out.push_io_result(&JitDumpHeader::parse_after_magic::<T>(magic, bytes));
        }
        "JitDumpRecordHeader::parse_impl" => {
            out.push_io_result(&JitDumpRecordHeader::parse_impl::<T>(bytes));
        }
        "JitDumpRawRecord::parse" => push_parsed(&Ok(Some(raw_record(call)?)), out),
        "JitCodeDebugInfoRecord::lookup" => {
            let info = JitCodeDebugInfoRecord::parse(Global, call.endian, bytes)?;
            for address in call.case.numbers("addr")? {
                out.push_line(&info.lookup(address).map(|entry| entry.code_addr));
            }
        }
        "jit" => push_calls(call, out)?,
        "BufferedReader" => push_buffered_calls(call, out)?,
        "UnrecognizedVersion" => push_jit_error(call, out, &JitDumpError::UnrecognizedVersion(2)),
        _ => return Ok(false),
    }
    Ok(true)
}

/// Appends the name of an error as a line, and its text as another if the case has the option `display`.
fn push_jit_error(call: &Call<'_>, out: &mut Output, error: &JitDumpError) {
    out.push_line(error);
    if call.case.has("display") {
        writeln!(out, "{error}");
    }
}

/// The record with the body in the input, and the type of the option `type`.
fn raw_record<'a>(call: &Call<'a>) -> Tested<JitDumpRawRecord<'a>> {
    Ok(JitDumpRawRecord {
        endian: call.endian,
        record_type: JitDumpRecordType(call.case.small("type")?),
        timestamp: 9,
        start_offset: 40,
        record_size: 62,
        body: call.raw(),
    })
}

/// Appends a record as it is parsed, with the offset of the code from the record's start.
fn push_parsed(read: &io::Result<Option<JitDumpRawRecord<'_>>>, out: &mut Output) {
    let Ok(Some(record)) = read else {
        return writeln!(out, "no record");
    };
    let parsed = record.parse(Global);
    out.push_io_result(&parsed);
    if let Ok(JitDumpRecord::CodeLoad(load)) = &parsed {
        writeln!(
            out,
            "code at {}",
            load.code_bytes_offset_from_record_header_start()
        );
    }
}

/// Opens a reader with a buffer of the size of the option `buffer`, makes a list of calls, and prints what each returns. Of a call that
/// is made N times, results that follow an equal one aren't printed.
fn push_calls(call: &Call<'_>, out: &mut Output) -> Tested {
    let opened = match call.case.size("buffer", 0)? {
        0 => JitDumpReader::new(Global, call.script()),
        size => JitDumpReader::new_with_buffer_size(Global, call.script(), size),
    };
    let has_slices = call.case.has("slices");
    let steps = steps(call)?;
    let mut reader = match opened {
        Ok(reader) => reader,
        Err(error) => {
            push_jit_error(call, out, &error);
            return Ok(());
        }
    };
    for step in steps {
        let mut last = None;
        for _ in 0..step.count {
            let mut lines = Output::default();
            push_call(call, step, has_slices, &mut reader, &mut lines)?;
            if last.as_ref() != Some(&lines) {
                out.text.push_str(&lines.text);
            }
            last = Some(lines);
        }
    }
    Ok(())
}

fn push_call(
    call: &Call<'_>,
    step: Step<'_>,
    has_slices: bool,
    reader: &mut Reader,
    out: &mut Output,
) -> Tested {
    match step.name {
        "next" => {
            match reader.next_record() {
                Ok(Some(record)) => push_record(call, &record, has_slices, out),
                Ok(None) => write!(out, "None"),
                Err(error) => write!(out, "Err({:?})", error.kind()),
            }
            writeln!(out, " at {}", reader.next_record_offset());
        }
        "skip" => {
            match reader.skip_next_record() {
                Ok(is_skipped) => write!(out, "{is_skipped}"),
                Err(error) => write!(out, "Err({:?})", error.kind()),
            }
            writeln!(out, " at {}", reader.next_record_offset());
        }
        "parse" => push_parsed(&reader.next_record(), out),
        "peek" => out.push_io_result(&reader.next_record_header()),
        "peek_time" => out.push_io_result(&reader.next_record_timestamp()),
        "peek_type" => out.push_io_result(&reader.next_record_type()),
        "offset" => out.push_line(&reader.next_record_offset()),
        "has_buffered" => out.push_line(&reader.has_buffered(step.number()?)),
        "header" => out.push_line(reader.header()),
        "endian" => out.push_line(&reader.endian()),
        _ => return step.unknown(),
    }
    Ok(())
}

/// Prints the offset, time, type and size of a record, and the sizes of the slices of its body.
fn push_record(call: &Call<'_>, record: &JitDumpRawRecord<'_>, has_slices: bool, out: &mut Output) {
    let (offset, time) = (record.start_offset, record.timestamp);
    write!(
        out,
        "{offset} {time} {} {}",
        record.record_type.0, record.record_size
    );
    let body = offset as usize + JitDumpRecordHeader::SIZE;
    let expected = call.bytes.get(body..body + record.body.len());
    if expected.map(RawData::from) != Some(record.body) {
        write!(out, " with another body");
    }
    if let (true, RawData::Split(first, second)) = (has_slices, record.body) {
        write!(out, " [{}, {}]", first.len(), second.len());
    }
}

/// Fills the first bytes of a buffer, makes a list of calls on a reader of its rest and the source, and prints what each returns.
fn push_buffered_calls(call: &Call<'_>, out: &mut Output) -> Tested {
    let steps = steps(call)?;
    let (size, consumed) = (call.case.size("size", 0)?, call.case.size("consumed", 0)?);
    let written = call.case.size("written", 0)?.min(size);
    let mut source = call.script();
    let mut buffer = library::vec(&vec![0; size]);
    let read = source.read_exact_or_until_eof(&mut buffer[..written]);
    out.push_io_result(&read);
    let Ok(written) = read else {
        return Ok(());
    };
    if consumed > written || size == 0 {
        return Err("more bytes are consumed than written".into());
    }
    let mut reader =
        BufferedReader::new_with_partially_read_buffer(Global, source, buffer, consumed, written);
    for step in steps {
        match step.name {
            "consume_data" => out.push_raw(&reader.consume_data(step.number()?)),
            "skip_bytes" => out.push_io_result(&reader.skip_bytes(step.number()?)),
            _ => return step.unknown(),
        }
    }
    Ok(())
}
