//! The parsers of sections and of records that tools write: features, attributes, build ids, and the keys of mapped objects.

use super::steps::{equalities, push_left};
use crate::language::{Call, Output, Tested};
use crate::library::{self, Global};
use dewikura::perfdata_base::event::{CpuMode, RecordType};
use dewikura::perfdata_base::raw::FileOrder;
use dewikura::perfdata_base::section::PerfFileSection;
use dewikura::perfdata_base::source::{PlacedSource, Script, skip_up_to};
use dewikura::perfdata_records::auxtrace::Auxtrace;
use dewikura::perfdata_records::build_id_event::BuildIdEvent;
use dewikura::perfdata_records::dso_key::DsoKey;
use dewikura::perfdata_records::record::*;
use dewikura::perfdata_records::thread_map::ThreadMap;
use dewikura::perfdata_sections::error::Error;
use dewikura::perfdata_sections::event_type::SimplePerfEventType;
use dewikura::perfdata_sections::feature_sections::*;
use std::io::{self, SeekFrom};

/// Makes the call of a case, if this module has it. With the option `left` it prints the number of bytes that are left unread.
pub fn call<T: FileOrder>(call: &Call<'_>, out: &mut Output) -> Tested<bool> {
    if push_parsed::<T>(call, out)? {
        return Ok(true);
    }
    let mut source = call.script();
    if call.case.call.starts_with("parse_") {
        push_attributes::<T>(call, &mut source, out)?;
    } else if !push_section::<T>(call, &mut source, out)? {
        return Ok(false);
    }
    if call.case.has("left") {
        push_left(out, skip_up_to(&mut source, u64::MAX)?);
    }
    Ok(true)
}

fn push_section<T: FileOrder>(
    call: &Call<'_>,
    source: &mut Script,
    out: &mut Output,
) -> Tested<bool> {
    match call.case.call {
        "NrCpus::parse" => out.push_io_result(&NrCpus::parse::<_, T>(source)),
        "SampleTimeRange::parse" => out.push_io_result(&SampleTimeRange::parse::<_, T>(source)),
        "CompressionInfo::parse" => out.push_io_result(&CompressionInfo::parse::<_, T>(source)),
        "ClockData::parse" => out.push_io_result(&ClockData::parse::<_, T>(source)),
        "HeaderString::parse" => out.push_io_result(&HeaderString::parse::<_, T>(Global, source)),
        "PmuMappings::parse" => {
            let mappings = PmuMappings::parse::<_, T>(Global, source);
            out.push_io_result(&mappings.map(|mappings| mappings.0));
        }
        "BuildIdEvent::parse" => {
            for _ in 0..call.case.size("count", 1)? {
                out.push_io_result(&BuildIdEvent::parse::<_, T>(Global, &mut *source));
            }
        }
        _ => return Ok(false),
    }
    Ok(true)
}

/// Parses attributes in a section, each of the size in the option `attr-size`.
fn parse<T: FileOrder>(
    call: &Call<'_>,
    source: &mut Script,
) -> Tested<Result<library::LibraryVec<AttributeDescription>, Error>> {
    let numbers = call.case.numbers("section")?;
    let at = |index| numbers.get(index).copied().unwrap_or(0);
    let section = PerfFileSection {
        offset: at(0),
        size: at(1),
    };
    let attr_size = call.case.number("attr-size")?.unwrap_or(0);
    let names = call
        .case
        .option("types")
        .unwrap_or("")
        .split_terminator(',');
    let types: Vec<_> = names
        .map(|name| SimplePerfEventType::new(library::string(name), 1, 0))
        .collect();
    Ok(match call.case.call {
        "parse_event_desc_section" => {
            if section.offset != 0 {
                source.seek_to(SeekFrom::Start(section.offset))?;
            }
            AttributeDescription::parse_event_desc_section::<_, T>(Global, source)
        }
        "parse_event_types_section" => AttributeDescription::parse_event_types_section::<_, T>(
            Global, source, &section, attr_size,
        ),
        "parse_simpleperf_attr_section" => AttributeDescription::parse_simpleperf_attr_section::<
            _,
            T,
        >(Global, source, &section, attr_size, &types),
        "parse_attr_section" => {
            AttributeDescription::parse_attr_section::<_, T>(Global, source, &section, attr_size)
        }
        name => return Err(format!("an unknown parser: {name}").into()),
    })
}

fn push_attributes<T: FileOrder>(call: &Call<'_>, source: &mut Script, out: &mut Output) -> Tested {
    match parse::<T>(call, source)? {
        Ok(all) => {
            writeln!(out, "{} attributes", all.len());
            for description in all.iter() {
                let (name, ids) = (description.name(), description.ids());
                writeln!(out, "{name:?}, {ids:?}, {:?}", description.attributes());
            }
        }
        Err(error) => out.push_result(&Err::<(), _>(error)),
    }
    Ok(())
}

/// Parses the body of a record, or an entry of build ids in bytes, or makes a call of keys.
fn push_parsed<T: FileOrder>(call: &Call<'_>, out: &mut Output) -> Tested<bool> {
    let body = call.raw();
    match call.case.call {
        "Auxtrace::parse" => out.push_io_result(&Auxtrace::parse::<T>(body)),
        "HeaderAttr::parse" => out.push_io_result(&HeaderAttr::parse::<T>(Global, body)),
        "HeaderFeature::parse" => out.push_io_result(&HeaderFeature::parse::<T>(Global, body)),
        "ThreadMap::parse" => match ThreadMap::parse::<T>(body) {
            Ok(map) => push_threads(out, &map)?,
            Err(error) => out.push_io_result(&Err::<(), _>(error)),
        },
        "RawUserRecord::parse" => push_user_record(call, out)?,
        "before_nul" => out.push_line(before_nul(call.bytes)),
        "BuildIdEvent::read_with_endian" => {
            let mut bytes = call.bytes;
            let entry = BuildIdEvent::read_with_endian(Global, call.endian, &mut bytes);
            out.push_io_result(&entry.map_err(io::Error::from));
            push_left(out, bytes.len() as u64);
        }
        "DsoKey::detect" => push_keys(call, out)?,
        "DsoKey::eq" => push_equalities(call, out)?,
        _ => return Ok(false),
    }
    Ok(true)
}

/// Appends the length of a map, and a line for each of its threads.
fn push_threads(out: &mut Output, map: &ThreadMap<'_>) -> Tested {
    writeln!(
        out,
        "ThreadMap: len {}, is_empty {}",
        map.len(),
        map.is_empty()
    );
    for thread in map.iter() {
        let name = thread.name.as_slice(Global)?;
        out.push_line(&(thread.tid, name.as_slice()));
    }
    Ok(())
}

/// Parses a record of the type in the option `type`, with the option `misc`.
fn push_user_record(call: &Call<'_>, out: &mut Output) -> Tested {
    let record_type = UserRecordType::try_from(RecordType(call.case.small("type")?));
    let record = RawUserRecord {
        record_type: record_type.ok_or("a type that isn't a user record's")?,
        endian: call.endian,
        misc: call.case.small("misc")?,
        body: call.raw(),
    };
    match record.parse(Global) {
        Ok(UserRecord::ThreadMap(map)) => push_threads(out, &map)?,
        parsed => out.push_io_result(&parsed),
    }
    Ok(())
}

/// Prints the key and the name of a path in each mode.
fn push_keys(call: &Call<'_>, out: &mut Output) -> Tested {
    for mode in [1, 4, 2, 5, 3, 0].map(CpuMode::from_misc) {
        match DsoKey::detect(Global, call.bytes, mode)? {
            Some(key) => writeln!(out, "{mode:?}: {key:?} {:?}", key.name()),
            None => writeln!(out, "{mode:?}: None"),
        }
    }
    Ok(())
}

/// Compares the keys of two paths, and the hashes of the keys.
fn push_equalities(call: &Call<'_>, out: &mut Output) -> Tested {
    let mode = match call.case.option("mode") {
        Some("Kernel") => CpuMode::Kernel,
        Some("User") | None => CpuMode::User,
        Some(_) => return Err("a mode that isn't Kernel or User".into()),
    };
    let first = DsoKey::detect(Global, call.bytes, mode)?.ok_or("a path without a key")?;
    let second = DsoKey::detect(Global, call.argument(1)?, mode)?.ok_or("a path without a key")?;
    out.push_line(&equalities(&first, &second));
    Ok(())
}
