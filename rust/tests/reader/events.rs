//! Event bodies, and those of their fields that consist of numbers.

use crate::language::{Call, Output, Tested};
use dewikura::perfdata_base::attr::PerfEventAttr;
use dewikura::perfdata_base::event::{CpuMode, RawEventRecord, RecordType};
use dewikura::perfdata_base::place::RecordParseInfo;
use dewikura::perfdata_base::raw::FileOrder;
use dewikura::perfdata_events::call_chain::CallChain;
use dewikura::perfdata_events::event::EventRecord;
use dewikura::perfdata_events::format::EventFormat;
use dewikura::perfdata_events::read_values::GroupValues;
use dewikura::perfdata_events::sample_parts::BranchStack;
use dewikura::perfdata_events::sample_words::WeightStruct;
use dewikura::perfdata_events::u64s::RawDataU64;
use std::io;

/// Makes the call of a case, if this module has it. The input is the body of a record, or numbers; the attribute of a body follows it,
/// or consists of zeros.
pub fn call<T: FileOrder>(call: &Call<'_>, out: &mut Output) -> Tested<bool> {
    if !matches!(call.case.call, "cpu-mode" | "event" | "sample-id") {
        return push_numbers(call, out);
    }
    let attr = if call.values.len() > 1 {
        call.argument(1)?
    } else {
        &[0; 64]
    };
    let (attr, _) = PerfEventAttr::parse::<&[u8], T>(attr)?;
    let format = EventFormat::with_little_endian_flags(&attr, call.endian);
    let record = RawEventRecord {
        record_type: RecordType(call.case.small("type")?),
        misc: call.case.small("misc")?,
        body: call.raw(),
        parse_info: RecordParseInfo::new(&attr, call.endian),
    };
    match call.case.call {
        "cpu-mode" => out.push_line(&CpuMode::from_misc(record.misc)),
        "event" => push_event(out, &format.parse(&record)),
        _ => out.push_io_result(&format.sample_id(&record)),
    }
    Ok(true)
}

/// Appends a record in the form of `{:?}`, without fields that are `None`.
fn push_event(out: &mut Output, event: &io::Result<EventRecord<'_>>) {
    let mut text = Output::default();
    text.push_io_result(event);
    for part in text.text.split(": None") {
        let part = part.trim_start_matches([',', ' ']);
        write!(
            out,
            "{}",
            part.trim_end_matches(|c: char| c == '_' || c.is_alphanumeric())
        );
    }
}

/// The numbers of weights, or the frames of a call chain; or how many counters, branches or numbers there are, and what is at each
/// index of the option `get`.
fn push_numbers(call: &Call<'_>, out: &mut Output) -> Tested<bool> {
    let name = call.case.call;
    if !matches!(
        name,
        "weight-struct" | "call-chain" | "group-values" | "branch-stack" | "u64s"
    ) {
        return Ok(false);
    }
    let (indices, has_id, has_lost) = (
        call.case.numbers("get")?,
        call.case.has("id"),
        call.case.has("lost"),
    );
    let Some(values) = RawDataU64::new(call.endian, call.raw()) else {
        out.push_line("no whole numbers");
        return Ok(true);
    };
    let group = GroupValues {
        time_enabled: None,
        time_running: None,
        has_id,
        has_lost,
        numbers: values,
    };
    let stack = BranchStack {
        hw_index: None,
        entries: values,
        counters: None,
    };
    match name {
        "weight-struct" => values
            .iter()
            .for_each(|weight| out.push_line(&WeightStruct::new(weight))),
        "call-chain" => (CallChain { values })
            .iter()
            .for_each(|frame| out.push_line(&frame)),
        _ => {
            for index in indices.into_iter().map(|index| index as usize) {
                match name {
                    "group-values" => out.push_line(&(group.len(), group.get(index))),
                    "branch-stack" => out.push_line(&(stack.len(), stack.get(index))),
                    _ => out.push_line(&(values.len(), values.is_empty(), values.get(index))),
                }
            }
        }
    }
    Ok(true)
}
