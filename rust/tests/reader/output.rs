//! The calls that write lines: the buffer of lines, and the end of a program.

use super::sink::Sink;
use crate::language::{Call, Output, Tested};
use crate::library::Global;
use dewikura::linux_perf_data::Error;
use dewikura::perfdata_listing::list::{ListCause, ListFault, flush_listing, list_file};
use dewikura::perfdata_listing::output::{CountingBufWriter, finish, write_line};
use std::io::{self, Cursor, ErrorKind, Write};

/// A buffer of lines before the writer of a case.
type Buffer<'a> = CountingBufWriter<&'a mut Sink>;

/// Prints the exit status after a listing, and what is written to standard error. The listing has `records=N` records, or fails
/// after `fault=N`, or is that of the input.
pub fn push_finish(call: &Call<'_>, out: &mut Output) -> Tested {
    let listed = match (call.case.number("records")?, call.case.number("fault")?) {
        (Some(records), _) => Ok(records),
        (None, Some(records)) => Err(records),
        (None, None) => {
            let mut buffer = CountingBufWriter::new(Global, Vec::new())?;
            let listed = list_file(Global, Cursor::new(call.bytes), &mut buffer);
            flush_listing(listed, &mut buffer)
        }
    };
    let mut sink = Sink::from_call(call)?;
    out.push_io_result(&finish(listed, &mut sink));
    sink.push_text(out);
    Ok(())
}

/// Writes a line, and prints the result and the written text.
pub fn push_write(call: &Call<'_>, out: &mut Output) -> Tested {
    let mut sink = Sink::from_call(call)?;
    out.push_io_result(&write_line(&mut sink, call.bytes));
    sink.push_text(out);
    sink.push_counts(out);
    Ok(())
}

/// The result of a listing of this name, with this number of lines.
fn listing(name: &str, lines: u64) -> Tested<Result<u64, ListFault>> {
    let cause = match name {
        "ok" => return Ok(Ok(lines)),
        "write" => ListCause::Write(io::Error::from(ErrorKind::StorageFull)),
        "perf" => ListCause::Perf(Error::Failed),
        _ => return Err(format!("an unknown listing: {name}").into()),
    };
    Ok(Err(ListFault { lines, cause }))
}

/// Flushes the buffer, or ends the listings that the option `listed` names.
fn push_flushes(call: &Call<'_>, buffer: &mut Buffer<'_>, lines: u64, out: &mut Output) -> Tested {
    let Some(names) = call.case.option("listed") else {
        out.push_io_result(&buffer.flush());
        return Ok(());
    };
    for name in names.split(',') {
        out.push_line(&flush_listing(listing(name, lines)?, buffer));
    }
    Ok(())
}

/// Writes the input `lines=N` times into a buffer of lines, and flushes it; with `listed=NAMES` as the end of listings that return
/// `ok`, or fail with `perf` or `write`. Prints the number of lines that reach the writer before and after that.
pub fn push_flush(call: &Call<'_>, out: &mut Output) -> Tested {
    let lines = call.case.number("lines")?.unwrap_or(1);
    let mut sink = Sink::from_call(call)?;
    let mut buffer = CountingBufWriter::new(Global, &mut sink)?;
    match (0..lines).try_for_each(|_| write_line(&mut buffer, call.bytes)) {
        Ok(()) => {
            out.push_line(&buffer.lines_written());
            push_flushes(call, &mut buffer, lines, out)?;
        }
        error => out.push_io_result(&error),
    }
    out.push_line(&buffer.lines_written());
    drop(buffer);
    sink.push_counts(out);
    Ok(())
}
