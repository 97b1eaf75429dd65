//! Record headers, section entries, attributes with their parse infos, and the headers of files and pipes.

use crate::language::{Call, Output, Tested};
use dewikura::perfdata_base::attr::PerfEventAttr;
use dewikura::perfdata_base::event::{PerfEventHeader, RecordType};
use dewikura::perfdata_base::header::{PerfHeader, PerfPipeHeader};
use dewikura::perfdata_base::place::{
    RecordParseInfo, get_record_id, get_record_identifier, get_record_timestamp,
};
use dewikura::perfdata_base::raw::{Endianness, FileOrder};
use dewikura::perfdata_base::section::PerfFileSection;
use dewikura::perfdata_base::source::Source;
use std::io::Cursor;

/// Parses a part of a slice and of a cursor, at the offset of the option `at`. Prints it, and the number of bytes that it takes.
pub fn call<T: FileOrder>(call: &Call<'_>, out: &mut Output) -> Tested<bool> {
    let at = call.case.size("at", 0)?;
    let mut rest = call.bytes.get(at..).unwrap_or(&[]);
    let mut cursor = Cursor::new(call.bytes);
    cursor.set_position(at as u64);
    let (name, size) = (call.case.call, rest.len());
    if name == "PerfHeader::parse" {
        out.push_io_result(&PerfHeader::parse(&mut cursor));
        out.push_line(&(cursor.position() - at as u64));
        return Ok(true);
    }
    if !push_part::<_, T>(name, &mut rest, out) {
        return push_info::<T>(call, out);
    }
    out.push_line(&(size - rest.len()));
    let (first, mut other) = (out.clone(), Output::default());
    push_part::<_, T>(name, &mut cursor, &mut other);
    other.push_line(&(cursor.position() - at as u64));
    out.append_other(&first, "cursor", &other);
    Ok(true)
}

fn push_part<S: Source, T: FileOrder>(name: &str, source: &mut S, out: &mut Output) -> bool {
    match name {
        "PerfEventHeader::parse" => out.push_io_result(&PerfEventHeader::parse::<_, T>(source)),
        "PerfFileSection::parse" => out.push_io_result(&PerfFileSection::parse::<_, T>(source)),
        "PerfEventAttr::parse" => out.push_io_result(&PerfEventAttr::parse::<_, T>(source)),
        "PerfPipeHeader::parse" => out.push_io_result(&PerfPipeHeader::parse(source)),
        "PerfPipeHeader::parse_with_extra" => {
            out.push_io_result(&PerfPipeHeader::parse_with_extra(source));
        }
        _ => return false,
    }
    true
}

/// Prints the record header at the start of the input, and the one in its first eight bytes; or the parse info of the attribute in the
/// last argument, for bodies in the input's byte order, or in little-endian with the option `little-endian-info`; or a number of the
/// record whose body is the input.
fn push_info<T: FileOrder>(call: &Call<'_>, out: &mut Output) -> Tested<bool> {
    let record_type = RecordType(call.case.small("type")?);
    let (body, bytes) = (call.raw(), call.bytes);
    let has_ids = call.case.has("sample_id_all");
    let endian = match call.case.has("little-endian-info") {
        true => Endianness::LittleEndian,
        false => call.endian,
    };
    let info = || -> Tested<RecordParseInfo> {
        let (attr, _) = PerfEventAttr::parse::<_, T>(call.argument(call.values.len() - 1)?)?;
        Ok(RecordParseInfo::new(&attr, endian))
    };
    match call.case.call {
        "PerfEventHeader::peek" => {
            out.push_line(&PerfEventHeader::peek(call.endian, bytes));
            if let Some(first) = bytes.first_chunk::<8>() {
                out.push_line(&PerfEventHeader::from_bytes(call.endian, first));
            }
        }
        "RecordParseInfo::new" => out.push_line(&info()?),
        "get_record_identifier" => {
            out.push_line(&get_record_identifier::<T>(record_type, body, has_ids));
        }
        "get_record_timestamp" => {
            out.push_line(&get_record_timestamp::<T>(record_type, body, &info()?));
        }
        "get_record_id" => {
            out.push_line(&get_record_id::<T>(
                record_type,
                body,
                &info()?.id_parse_info,
            ));
        }
        "read_time" => out.push_line(&info()?.read_time(record_type, bytes)),
        "read_identifier" => {
            let info = info()?;
            out.push_line(
                &info
                    .id_parse_info
                    .read_identifier(info.endian, record_type, bytes),
            );
        }
        _ => return Ok(false),
    }
    Ok(true)
}
