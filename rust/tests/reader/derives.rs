//! The derived traits of public types, on values that a case gives as bytes.

use super::steps::equalities;
use super::tables::{DECODE_ERRORS, READ_ERRORS};
use crate::language::{Call, Output, Tested};
use crate::library::{self, Global, LibraryString, LittleEndian};
use dewikura::linux_perf_data::RecordPlace;
use dewikura::perfdata_base::attr::{AttrFlags, PerfEventAttr, SampleFormat};
use dewikura::perfdata_base::event::{CpuMode, RecordType};
use dewikura::perfdata_base::raw::RawData;
use dewikura::perfdata_records::auxtrace::Auxtrace;
use dewikura::perfdata_records::dso_info::DsoInfo;
use dewikura::perfdata_records::record::UserRecordType;
use dewikura::perfdata_records::thread_map::{ThreadMap, ThreadMapEntry};
use dewikura::perfdata_sections::feature_sections::{AttributeDescription, ClockData};
use dewikura::perfdata_simpleperf::simpleperf::*;
use dewikura::shim::std::clone::TryClone;
use std::fmt::Debug;
use std::hash::Hash;
use std::io::Cursor;

/// Makes the call of a case, if this module has it.
pub fn call(call: &Call<'_>, out: &mut Output) -> Tested<bool> {
    match call.case.call {
        "equal" => push_equal(call, out)?,
        "cloned" => push_cloned(call, out)?,
        "hashed" => match type_name(call)? {
            "DsoInfo" => push_hashes(call, dso_info, out)?,
            "UserRecordType" => push_hashes(call, user_record_type, out)?,
            name => return unknown_type(name),
        },
        "ordered" => push_orders(call, out)?,
        "default" => {
            out.push_line(&SimpleperfElfFileInfo::default());
            out.push_line(&SimpleperfKernelModuleInfo::default());
        }
        "AttributeDescription" => push_description(call, out)?,
        _ => return Ok(false),
    }
    Ok(true)
}

/// The type in the options.
fn type_name<'a>(call: &Call<'a>) -> Tested<&'a str> {
    match call.case.words() {
        [name] => Ok(name),
        _ => Err("a type is missing".into()),
    }
}

fn unknown_type<T>(name: &str) -> Tested<T> {
    Err(format!("an unknown type: {name}").into())
}

/// Prints which values of the type in the options are equal.
fn push_equal(call: &Call<'_>, out: &mut Output) -> Tested {
    match type_name(call)? {
        "ReadError" => push_values(
            call,
            |bytes| Ok(READ_ERRORS[number(bytes, 0) as usize]),
            out,
        ),
        "DecodeError" => push_values(
            call,
            |bytes| Ok(DECODE_ERRORS[number(bytes, 0) as usize]),
            out,
        ),
        "CpuMode" => push_values(
            call,
            |bytes| Ok(CpuMode::from_misc(number(bytes, 0) as u16 & 7)),
            out,
        ),
        "SampleFormat" => push_values(call, |bytes| Ok(SampleFormat(number(bytes, 0))), out),
        "AttrFlags" => push_values(call, |bytes| Ok(AttrFlags(number(bytes, 0))), out),
        "ClockData" => push_values(call, clock_data, out),
        "RecordPlace" => push_values(call, record_place, out),
        "UserRecordType" => push_values(call, user_record_type, out),
        "Auxtrace" => push_values(call, auxtrace, out),
        "ThreadMap" => push_values(call, thread_map, out),
        "ThreadMapEntry" => push_values(call, thread_map_entry, out),
        "DsoInfo" => push_values(call, dso_info, out),
        "SimpleperfDexFileInfo" => push_values(call, dex_file_info, out),
        "SimpleperfElfFileInfo" => push_values(call, elf_file_info, out),
        "SimpleperfKernelModuleInfo" => push_values(call, kernel_module_info, out),
        "SimpleperfTypeSpecificInfo" => push_values(call, type_specific_info, out),
        "SimpleperfSymbol" => push_values(call, symbol, out),
        "SimpleperfFileRecord" => push_values(call, file_record, out),
        name => unknown_type(name),
    }
}

/// Prints whether a copy of a value of the type in the options equals it.
fn push_cloned(call: &Call<'_>, out: &mut Output) -> Tested {
    match type_name(call)? {
        "Auxtrace" => push_copy(call, auxtrace, out),
        "ThreadMap" => push_copy(call, thread_map, out),
        "ClockData" => push_copy(call, clock_data, out),
        "SimpleperfElfFileInfo" => push_copy(call, elf_file_info, out),
        "SimpleperfKernelModuleInfo" => push_copy(call, kernel_module_info, out),
        name => unknown_type(name),
    }
}

/// The values of a case.
fn values<'a, T>(call: &Call<'a>, parse: fn(&'a [u8]) -> Tested<T>) -> Tested<Vec<T>> {
    call.arguments()?.into_iter().map(parse).collect()
}

/// Prints the first value, and for each value the numbers of the values that equal it.
fn push_values<'a, T: Debug + PartialEq>(
    call: &Call<'a>,
    parse: fn(&'a [u8]) -> Tested<T>,
    out: &mut Output,
) -> Tested {
    let values = values(call, parse)?;
    out.push_line(&values.first());
    for value in &values {
        write!(out, "equal to");
        for (number, _) in values
            .iter()
            .enumerate()
            .filter(|(_, other)| value == *other)
        {
            write!(out, " {number}");
        }
        writeln!(out);
    }
    Ok(())
}

fn push_copy<'a, T: TryClone + PartialEq>(
    call: &Call<'a>,
    parse: fn(&'a [u8]) -> Tested<T>,
    out: &mut Output,
) -> Tested {
    let value = parse(call.bytes)?;
    out.push_line(&(value.try_clone()? == value));
    Ok(())
}

/// Prints for each value whether it equals the first one, and whether their hashes are equal.
fn push_hashes<'a, T: Eq + Hash>(
    call: &Call<'a>,
    parse: fn(&'a [u8]) -> Tested<T>,
    out: &mut Output,
) -> Tested {
    let values = values(call, parse)?;
    values
        .iter()
        .for_each(|value| out.push_line(&equalities(value, &values[0])));
    Ok(())
}

/// Prints the order of each type to the first one.
fn push_orders(call: &Call<'_>, out: &mut Output) -> Tested {
    if type_name(call)? != "UserRecordType" {
        return unknown_type(type_name(call)?);
    }
    let values = values(call, user_record_type)?;
    for value in &values {
        out.push_line(&(value.cmp(&values[0]), value.partial_cmp(&values[0])));
    }
    Ok(())
}

/// Prints the attribute in the input, with a name and an id.
fn push_description(call: &Call<'_>, out: &mut Output) -> Tested {
    let (attr, _) = PerfEventAttr::parse::<_, LittleEndian>(Cursor::new(call.bytes))?;
    let (name, ids) = (library::string("cycles"), library::vec(&[7]));
    out.push_line(&AttributeDescription::new(attr, Some(name), ids));
    Ok(())
}

/// The little-endian number at an index of numbers of 64 bits; 0 if there is none.
fn number(bytes: &[u8], index: usize) -> u64 {
    let rest = bytes.get(8 * index..).unwrap_or(&[]);
    rest.first_chunk()
        .map_or(0, |number| u64::from_le_bytes(*number))
}

/// The bytes after this number of numbers.
fn bytes_after(bytes: &[u8], count: usize) -> &[u8] {
    bytes.get(8 * count..).unwrap_or(&[])
}

fn auxtrace(bytes: &[u8]) -> Tested<Auxtrace<'_>> {
    Ok(Auxtrace::parse::<LittleEndian>(RawData::Single(bytes))?)
}

fn thread_map(bytes: &[u8]) -> Tested<ThreadMap<'_>> {
    Ok(ThreadMap::parse::<LittleEndian>(RawData::Single(bytes))?)
}

fn thread_map_entry(bytes: &[u8]) -> Tested<ThreadMapEntry<'_>> {
    let name = RawData::Single(bytes_after(bytes, 1));
    Ok(ThreadMapEntry {
        tid: number(bytes, 0),
        name,
    })
}

fn clock_data(bytes: &[u8]) -> Tested<ClockData> {
    Ok(ClockData {
        clockid: number(bytes, 0) as u32,
        wall_clock_ns: number(bytes, 1),
        clockid_time_ns: number(bytes, 2),
    })
}

fn record_place(bytes: &[u8]) -> Tested<RecordPlace> {
    Ok(RecordPlace {
        timestamp: Some(number(bytes, 0)).filter(|time| *time != 0),
        offset: number(bytes, 1),
        round: number(bytes, 2),
    })
}

fn user_record_type(bytes: &[u8]) -> Tested<UserRecordType> {
    let record_type = RecordType(number(bytes, 0) as u32);
    Ok(UserRecordType::try_from(record_type).ok_or("no type of a user record")?)
}

fn dso_info(bytes: &[u8]) -> Tested<DsoInfo> {
    let (path, build_id) = bytes.split_at_checked(8).ok_or("fewer than 8 bytes")?;
    Ok(DsoInfo {
        path: library::vec(path),
        build_id: library::vec(build_id),
    })
}

fn dex_file_info(bytes: &[u8]) -> Tested<SimpleperfDexFileInfo> {
    let dex_file_offset = library::vec(&[number(bytes, 0), number(bytes, 1)]);
    Ok(SimpleperfDexFileInfo { dex_file_offset })
}

fn elf_file_info(bytes: &[u8]) -> Tested<SimpleperfElfFileInfo> {
    Ok(SimpleperfElfFileInfo {
        file_offset_of_min_vaddr: number(bytes, 0),
    })
}

fn kernel_module_info(bytes: &[u8]) -> Tested<SimpleperfKernelModuleInfo> {
    Ok(SimpleperfKernelModuleInfo {
        memory_offset_of_min_vaddr: number(bytes, 0),
    })
}

fn type_specific_info(bytes: &[u8]) -> Tested<SimpleperfTypeSpecificInfo> {
    Ok(file_record(bytes)?
        .type_specific_msg
        .ok_or("no information for this type")?)
}

fn symbol(bytes: &[u8]) -> Tested<SimpleperfSymbol> {
    Ok(SimpleperfSymbol {
        vaddr: number(bytes, 0),
        len: number(bytes, 1) as u32,
        name: LibraryString::from_utf8_lossy(Global, bytes_after(bytes, 2))?,
    })
}

fn file_record(bytes: &[u8]) -> Tested<SimpleperfFileRecord> {
    Ok(SimpleperfFileRecord::decode(Global, bytes)?)
}
