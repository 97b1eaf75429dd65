//! The parsers of simpleperf's additions to a file.

use super::steps::push_left;
use crate::language::{Call, Output, Tested};
use crate::library::{self, Global};
use dewikura::perfdata_base::raw::FileOrder;
use dewikura::perfdata_simpleperf::simpleperf::{
    SimplePerfEventType, SimpleperfFileRecord, SliceReadStringExt, get_event_types,
    parse_file_section, parse_file2_section, parse_meta_info_map,
};

/// Makes the call of a case, if this module has it.
pub fn call<T: FileOrder>(call: &Call<'_>, out: &mut Output) -> Tested<bool> {
    let (bytes, endian) = (call.bytes, call.endian);
    match call.case.call {
        "decode" => out.push_line(&SimpleperfFileRecord::decode(Global, bytes)),
        "decode_v1" => out.push_io_result(&SimpleperfFileRecord::decode_v1::<T>(Global, bytes)),
        "parse_file_section" => out.push_result(&parse_file_section(Global, bytes, endian)),
        "parse_file2_section" => out.push_result(&parse_file2_section(Global, bytes, endian)),
        "parse_meta_info_map" => match parse_meta_info_map(Global, bytes) {
            Ok(map) => {
                let mut pairs: Vec<_> = map.iter().collect();
                pairs.sort();
                out.push_line(&pairs);
            }
            Err(error) => out.push_result(&Err::<(), _>(error)),
        },
        "get_event_types" => match get_event_types(Global, &parse_meta_info_map(Global, bytes)?)? {
            Some(types) => types.iter().for_each(|event| push_event_type(out, event)),
            None => writeln!(out, "None"),
        },
        "SimplePerfEventType::new" => {
            let name = library::string(call.case.option("name").unwrap_or(""));
            let (type_, config) = (call.case.small("type")?, call.case.small("config")?);
            push_event_type(out, &SimplePerfEventType::new(name, type_, config));
        }
        "read_nul_terminated_str" => push_texts(call, out),
        _ => return Ok(false),
    }
    Ok(true)
}

fn push_event_type(out: &mut Output, event: &SimplePerfEventType) {
    out.push_line(&(event.name.as_str(), event.type_, event.config));
}

/// Appends each text up to a NUL, the error after them, and the number of bytes that are left.
fn push_texts(call: &Call<'_>, out: &mut Output) {
    let mut bytes = call.bytes;
    loop {
        let text = bytes.read_nul_terminated_str();
        out.push_io_result(&text);
        if text.is_err() {
            break;
        }
    }
    push_left(out, bytes.len() as u64);
}
