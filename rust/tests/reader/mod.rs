//! The calls of the reader, of listings, of the orders in time, of metadata, and of the parsers of single values and event bodies.

mod compressed;
mod derives;
mod events;
mod in_memory;
mod items;
mod jitdump;
mod listing;
mod metadata;
mod numbers;
mod orders;
mod output;
mod parts;
mod raw;
mod reading;
mod sections;
mod simpleperf;
mod sink;
mod sources;
mod steps;
mod tables;

use crate::language::{Call, Output, Tested};
use crate::library::{BigEndian, LittleEndian};
use dewikura::perfdata_base::raw::{Endianness, FileOrder};

/// Makes the call of a case in the byte order of its input, if this module has it.
pub fn call(call: &Call<'_>, out: &mut Output) -> Tested<bool> {
    match call.case.call {
        "list-file" | "list-pipe" | "list-jit" => listing::push_listing(call, out)?,
        "by-time-file" | "by-time-pipe" => listing::push_by_time(call, out)?,
        "write-line" => output::push_write(call, out)?,
        "flush" => output::push_flush(call, out)?,
        "finish" => output::push_finish(call, out)?,
        "read-file" | "read-unfinished" | "read-pipe" => reading::push_reading(call, out)?,
        "items-file" | "items-pipe" => items::push_items(call, out)?,
        "order-file" | "order-pipe" => orders::push_ordered(call, out)?,
        "order-reads" => orders::push_reads(call, out)?,
        "sort" => orders::push_sorted(call, out)?,
        "decompressed-file" | "decompressed-pipe" => compressed::push_decompressed(call, out)?,
        "metadata" => metadata::push_metadata(call, out)?,
        "bytes-left" => in_memory::push_bytes_left(call, out),
        "entries" | "two-bodies" => in_memory::push_in_memory(call, out)?,
        "size" => out.push_line(&call.bytes.len()),
        _ => {
            return match call.endian {
                Endianness::LittleEndian => call_in::<LittleEndian>(call, out),
                Endianness::BigEndian => call_in::<BigEndian>(call, out),
            };
        }
    }
    Ok(true)
}

fn call_in<T: FileOrder>(call: &Call<'_>, out: &mut Output) -> Tested<bool> {
    Ok(raw::call::<T>(call, out)?
        || tables::call(call, out)
        || derives::call(call, out)?
        || numbers::call(call, out)?
        || simpleperf::call::<T>(call, out)?
        || jitdump::call::<T>(call, out)?
        || sections::call::<T>(call, out)?
        || parts::call::<T>(call, out)?
        || events::call::<T>(call, out)?)
}
