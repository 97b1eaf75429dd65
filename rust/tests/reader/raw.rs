//! Bytes in one slice or in two, and sources of each type.

use super::steps::{Step, steps};
use crate::language::{Call, Output, Tested, number};
use crate::library::{self, BufReader, Global};
use dewikura::perfdata_base::raw::{FileOrder, RawData};
use dewikura::perfdata_base::source::*;
use std::io::{self, Cursor, Read, Seek, SeekFrom};

/// Makes a list of calls on the input as raw data or on sources, if the case names it, and prints what each returns.
pub fn call<T: FileOrder>(call: &Call<'_>, out: &mut Output) -> Tested<bool> {
    match call.case.call {
        "raw" => {
            let mut bytes = call.raw();
            for step in steps(call)? {
                push_raw_call::<T>(step, call.argument(1)?, &mut bytes, out)?;
            }
        }
        "source" => push_sources(call, out)?,
        _ => return Ok(false),
    }
    Ok(true)
}

/// Makes a call on raw data. `other` is the bytes that it is compared with.
fn push_raw_call<T: FileOrder>(
    step: Step<'_>,
    other: &[u8],
    bytes: &mut RawData<'_>,
    out: &mut Output,
) -> Tested {
    match step.name {
        "len" => out.push_line(&bytes.len()),
        "is_empty" => out.push_line(&bytes.is_empty()),
        "eq" => out.push_line(&(*bytes == RawData::from(other))),
        "eq_split" => {
            let (first, second) = other.split_at(step.number()?.min(other.len()));
            out.push_line(&(*bytes == RawData::Split(first, second)));
        }
        "read_u8" => out.push_io_result(&bytes.read_u8()),
        "read_u16" => out.push_io_result(&bytes.read_u16::<T>()),
        "read_u32" => out.push_io_result(&bytes.read_u32::<T>()),
        "read_i32" => out.push_io_result(&bytes.read_i32::<T>()),
        "read_u64" => out.push_io_result(&bytes.read_u64::<T>()),
        "skip" => out.push_io_result(&bytes.skip(step.number()?)),
        "read_exact" => {
            let mut buffer = vec![0; step.number()?];
            out.push_io_result(&bytes.read_exact(&mut buffer).map(|()| buffer));
        }
        "as_slice" => out.push_line(&bytes.as_slice(Global)?.as_slice()),
        "get" => {
            let (start, end) = step.argument.split_once("..").ok_or("a range without ..")?;
            out.push_raw(&Ok(
                bytes.get(number(start)? as usize..number(end)? as usize)
            ));
        }
        "split_off_prefix" => out.push_raw(&bytes.split_off_prefix(step.number()?).map(Some)),
        "read_string" => out.push_raw(&Ok(bytes.read_string())),
        _ => return step.unknown(),
    }
    Ok(())
}

/// The types of sources, unless a case names some.
const KINDS: &str = "slice,raw,cursor,vec,script,counted,buffered";

/// A reader of std that does the steps of a script, and counts its reads and seeks.
struct CountingReader {
    script: Script,
    reads: u64,
    seeks: u64,
}

impl Read for CountingReader {
    fn read(&mut self, buffer: &mut [u8]) -> io::Result<usize> {
        self.reads += 1;
        self.script.read_front(buffer)
    }
}

impl Seek for CountingReader {
    fn seek(&mut self, to: SeekFrom) -> io::Result<u64> {
        self.seeks += 1;
        self.script.seek_to(to)
    }
}

/// Makes a list of calls on a source of each type of the option `kinds`, and prints the results; once if they are the same.
fn push_sources(call: &Call<'_>, out: &mut Output) -> Tested {
    let mut first = None;
    for kind in call.case.option("kinds").unwrap_or(KINDS).split(',') {
        let mut printed = Output::default();
        push_kind(call, kind, &mut printed)?;
        match &first {
            Some(first) => out.append_other(first, kind, &printed),
            None => {
                out.text.push_str(&printed.text);
                first = Some(printed);
            }
        }
    }
    Ok(())
}

/// Makes the calls on a source of a type. A buffer has 4 bytes or those of the option `capacity`. With the option `counts` the numbers
/// of reads and of seeks of the reader under the buffer follow.
fn push_kind(call: &Call<'_>, kind: &str, out: &mut Output) -> Tested {
    let mut bytes = call.bytes;
    let capacity = call.case.size("capacity", 4)?;
    let mut reader = CountingReader {
        script: call.script(),
        reads: 0,
        seeks: 0,
    };
    match kind {
        "slice" => push_calls(call, &mut bytes, out)?,
        "raw" => push_calls(call, &mut call.raw(), out)?,
        "cursor" => push_placed(call, &mut Cursor::new(bytes), out)?,
        "vec" => push_placed(call, &mut Cursor::new(library::vec(bytes)), out)?,
        "script" => push_placed(call, &mut reader.script, out)?,
        "counted" => push_placed(call, &mut Counted::new(&mut reader), out)?,
        "buffered" => {
            let buffer = BufReader::with_capacity(Global, capacity, &mut reader)?;
            push_placed(call, &mut CountedBuffer::new(buffer), out)?;
        }
        _ => return Err(format!("an unknown type of sources: {kind}").into()),
    }
    if call.case.has("counts") {
        out.push_line(&(reader.reads, reader.seeks));
    }
    Ok(())
}

fn push_calls<S: Source>(call: &Call<'_>, source: &mut S, out: &mut Output) -> Tested {
    steps(call)?
        .into_iter()
        .try_for_each(|step| push_call(step, source, out))
}

fn push_placed<S: PlacedSource>(call: &Call<'_>, source: &mut S, out: &mut Output) -> Tested {
    for step in steps(call)? {
        match seek_target(step)? {
            Some(to) => out.push_io_result(&source.seek_to(to)),
            None => push_call(step, source, out)?,
        }
    }
    Ok(())
}

/// The target of a seek: `start(N)`, `current(N)` or `end(N)`.
fn seek_target(step: Step<'_>) -> Tested<Option<SeekFrom>> {
    Ok(Some(match step.name {
        "start" => SeekFrom::Start(number(step.argument)?),
        "current" => SeekFrom::Current(step.argument.parse()?),
        "end" => SeekFrom::End(step.argument.parse()?),
        _ => return Ok(None),
    }))
}

/// Makes a call that reads, that skips, or that appends to a buffer.
fn push_call<S: Source>(step: Step<'_>, source: &mut S, out: &mut Output) -> Tested {
    match step.name {
        "buffer" => out.push_line(source.buffer()),
        "skip_up_to" => out.push_io_result(&skip_up_to(source, step.number()? as u64)),
        "skip_exact" => out.push_io_result(&skip_exact(source, step.number()? as u64)),
        name if name.starts_with("append") => return push_appended(step, source, out),
        _ => return push_read(step, source, out),
    }
    Ok(())
}

/// Makes a call that appends to a buffer with the byte 1. Prints how many bytes it appends, and the buffer.
fn push_appended<S: Source>(step: Step<'_>, source: &mut S, out: &mut Output) -> Tested {
    let count = step.number()?;
    let mut buffer = library::vec(&[1]);
    let appended = match step.name {
        "append_up_to" => append_up_to(source, &mut buffer, count),
        "append_exact" => append_exact(source, &mut buffer, count).map(|()| count),
        "append_buffered" => Ok(if source.append_buffered(&mut buffer, count)? {
            count
        } else {
            0
        }),
        _ => return step.unknown(),
    };
    out.push_io_result(&appended.map_err(io::Error::from));
    out.push_line(&buffer);
    Ok(())
}

/// Makes a call that reads. Prints the bytes that it reads.
fn push_read<S: Source>(step: Step<'_>, source: &mut S, out: &mut Output) -> Tested {
    let count = step.number()?;
    let mut buffer = vec![0; count];
    let read = match step.name {
        "read_front" => source.read_front(&mut buffer),
        "fill" => fill(source, &mut buffer),
        "read_exact" => read_exact(source, &mut buffer).map(|()| count),
        "read_buffered" => Ok(if source.read_buffered(&mut buffer) {
            count
        } else {
            0
        }),
        _ => return step.unknown(),
    };
    out.push_io_result(&read.map(|count| &buffer[..count]));
    Ok(())
}
