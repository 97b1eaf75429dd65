//! The sources that a call reads the bytes of its input from.

use crate::language::{Call, Output, Tested, error_kind};
use crate::library::{self, BufReader, Global};
use dewikura::perfdata_base::source::{Counted, PlacedSource, Source};
use std::io::Cursor;

/// A call that reads a source.
pub trait SourceCall {
    /// Appends the result of the call on a source, in lines.
    fn push<C: PlacedSource>(&self, source: C, out: &mut Output) -> Tested;
}

/// The largest number of bytes that a source returns one by one.
const MAX_SINGLE_BYTES: usize = 70_000;

/// Appends the result of a call on a slice, and those on an owned cursor, a buffered reader and a source of single bytes if they differ.
fn push_plain<V: SourceCall>(call: &Call<'_>, reading: &V, out: &mut Output) -> Tested {
    let single_bytes = Call {
        single_bytes: call.bytes.len().min(MAX_SINGLE_BYTES),
        ..*call
    };
    let mut results = [const {
        Output {
            text: String::new(),
        }
    }; 4];
    let [first, owned, buffered, single] = &mut results;
    reading.push(Cursor::new(call.bytes), first)?;
    reading.push(Cursor::new(library::vec(call.bytes)), owned)?;
    reading.push(
        Counted::new(BufReader::new(Global, Cursor::new(call.bytes))?),
        buffered,
    )?;
    reading.push(single_bytes.script(), single)?;
    out.text.push_str(&first.text);
    out.append_other(first, "an owned cursor", owned);
    out.append_other(first, "a buffered reader", buffered);
    out.append_other(first, "single bytes", single);
    Ok(())
}

/// Appends the result of a call on the source of the input. If its reads aren't scripted, the call is made on a cursor, an owned
/// cursor, a buffered reader, and a source of single bytes; the results that differ from the first are appended.
///
/// With the option `unread=KIND` a read after the call must fail with this kind.
pub fn push_sources<V: SourceCall>(call: &Call<'_>, reading: &V, out: &mut Output) -> Tested {
    let unread = call.case.option("unread");
    if call.is_plain() {
        return push_plain(call, reading, out);
    }
    let mut script = call.script();
    reading.push(&mut script, out)?;
    let Some(kind) = unread else {
        return Ok(());
    };
    match script.read_front(&mut [0]) {
        Err(error) if error.kind() == error_kind(kind)? => {}
        Ok(count) => writeln!(out, "a further read: {count}"),
        Err(error) => writeln!(out, "a further read: {:?}", error.kind()),
    }
    Ok(())
}
