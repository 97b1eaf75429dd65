//! The calls of listings.

use super::reading::is_pipe;
use super::sink::Sink;
use super::sources::{SourceCall, push_sources};
use crate::language::{Call, Output, Tested};
use crate::library::Global;
use dewikura::linux_perf_data::in_memory::InMemoryReader;
use dewikura::linux_perf_data::jitdump::JitDumpError;
use dewikura::linux_perf_data::source::PlacedSource;
use dewikura::perfdata_listing::line::ListingLine;
use dewikura::perfdata_listing::list::{ListCause, ListFault, list_file, list_pipe};
use dewikura::perfdata_listing::{list_by_time, list_jit, list_live_jit, list_live_pipe};
use std::io::Cursor;

type Listed = Result<u64, ListFault>;

/// Appends the complete lines of a text, the number of lines that the listing reports if it is another one, and the end of the listing.
fn push_listed(out: &mut Output, text: &[u8], listed: &Listed) {
    let text = String::from_utf8_lossy(text);
    if let Some((lines, _)) = text.rsplit_once('\n') {
        writeln!(out, "{lines}");
    }
    let reported = listed
        .as_ref()
        .map_or_else(|fault| fault.lines, |lines| *lines);
    if reported != text.matches('\n').count() as u64 {
        writeln!(out, "{reported} lines");
    }
    match listed.as_ref().map_err(|fault| &fault.cause) {
        Ok(_) => write!(out, "end"),
        Err(ListCause::Perf(error)) => out.push_error(error),
        Err(ListCause::Write(error)) => write!(out, "Write({:?})", error.kind()),
        Err(ListCause::Read(error)) => write!(out, "Read({:?})", error.kind()),
        Err(ListCause::Jit(JitDumpError::Io(error))) => write!(out, "Jit(Io({:?}))", error.kind()),
        Err(ListCause::Jit(error)) => write!(out, "Jit({error:?})"),
    }
    writeln!(out);
}

fn list<C: PlacedSource>(call: &Call<'_>, source: C, sink: &mut Sink) -> Listed {
    match (call.case.call, call.case.has("live")) {
        ("list-file", _) => list_file(Global, source, sink),
        ("list-pipe", false) => list_pipe(Global, source, sink),
        ("list-pipe", true) => list_live_pipe(Global, source, sink),
        (_, false) => list_jit(Global, source, sink),
        (_, true) => list_live_jit(Global, source, sink),
    }
}

/// Lists an input in memory in order of time.
fn list_in_order(call: &Call<'_>, sink: &mut Sink) -> Listed {
    let opened = match is_pipe(call.case.call) {
        false => InMemoryReader::parse_file(Global, call.bytes),
        true => InMemoryReader::parse_pipe(Global, call.bytes),
    };
    let reader = opened.map_err(|error| ListFault {
        lines: 0,
        cause: ListCause::Perf(error),
    })?;
    list_by_time(Global, reader, &mut ListingLine::new(), sink)
}

/// Appends what a listing wrote, and whether it isn't a prefix of what it writes without a limit.
fn push_written(out: &mut Output, complete: &[u8], sink: &Sink, listed: &Listed) {
    push_listed(out, &sink.written, listed);
    if !complete.starts_with(&sink.written) {
        writeln!(out, "another text");
    }
}

/// The listing of a case, and its text into a writer without a limit.
struct Listing<'a> {
    call: Call<'a>,
    complete: &'a [u8],
}

impl SourceCall for Listing<'_> {
    fn push<C: PlacedSource>(&self, source: C, out: &mut Output) -> Tested {
        let mut sink = Sink::from_call(&self.call)?;
        let listed = list(&self.call, source, &mut sink);
        push_written(out, self.complete, &sink, &listed);
        if self.call.case.has("live") {
            writeln!(out, "flushed at {:?}", sink.flushed_at);
        }
        Ok(())
    }
}

/// Lists an input in order of time, and prints the complete lines.
pub fn push_by_time(call: &Call<'_>, out: &mut Output) -> Tested {
    let mut complete = Sink::unlimited();
    let _ = list_in_order(call, &mut complete);
    let mut sink = Sink::from_call(call)?;
    let listed = list_in_order(call, &mut sink);
    push_written(out, &complete.written, &sink, &listed);
    Ok(())
}

/// Lists an input, and prints the complete lines. With the option `live` prints the number of bytes written before each flush.
pub fn push_listing(call: &Call<'_>, out: &mut Output) -> Tested {
    let mut sink = Sink::unlimited();
    let _ = list(call, Cursor::new(call.bytes), &mut sink);
    push_sources(
        call,
        &Listing {
            call: *call,
            complete: &sink.written,
        },
        out,
    )
}
