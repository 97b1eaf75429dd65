//! The calls that return records and the ends of rounds.

use super::reading::{is_pipe, open};
use super::sources::{SourceCall, push_sources};
use crate::language::{Call, Output, Tested};
use dewikura::linux_perf_data::file_reader::PerfItem;
use dewikura::linux_perf_data::source::PlacedSource;
use dewikura::linux_perf_data::{PerfFileRecord, RecordPlace};
use std::io::Cursor;

/// Appends the values of a record.
fn push_record(place: RecordPlace, record: &PerfFileRecord<'_>, out: &mut Output) {
    let (kind, body) = (record.record_type().0, record.body());
    let (offset, round, size) = (place.offset, place.round, body.len());
    writeln!(out, "{offset} {round} {kind} {size}");
}

/// The items of a case, or its records alone.
struct Items<'a> {
    call: Call<'a>,
    has_rounds: bool,
}

impl SourceCall for Items<'_> {
    /// Appends the results of the calls up to the end or the first error, one line each. The `turns` of the call alternate: `r` is a
    /// call of `next_record`, any other letter one of `next_item`.
    fn push<C: PlacedSource>(&self, source: C, out: &mut Output) -> Tested {
        let (mut perf_file, mut records) = match open(is_pipe(self.call.case.call), source) {
            Ok(opened) => opened,
            Err(error) => {
                write!(out, "open: ");
                out.push_result(&Err::<(), _>(error));
                return Ok(());
            }
        };
        let turns = match self.has_rounds {
            true => self.call.case.option("turns").unwrap_or("i"),
            false => "r",
        };
        for turn in turns.bytes().cycle() {
            let next = match turn {
                b'r' => records
                    .next_record(&mut perf_file)
                    .map(|next| next.map(|(place, record)| PerfItem::Record(place, record))),
                _ => records.next_item(&mut perf_file),
            };
            match next {
                Ok(Some(PerfItem::Record(place, record))) => push_record(place, &record, out),
                Ok(Some(PerfItem::RoundEnd { round })) => writeln!(out, "end of round {round}"),
                Ok(None) => {
                    writeln!(out, "end");
                    break;
                }
                Err(error) => {
                    out.push_result(&Err::<(), _>(error));
                    break;
                }
            }
        }
        Ok(())
    }
}

/// The items of an input. For an input without steps, what `next_record` returns is appended if it isn't the same without the ends of
/// rounds.
pub fn push_items(call: &Call<'_>, out: &mut Output) -> Tested {
    let items = Items {
        call: *call,
        has_rounds: true,
    };
    let mut read = Output::default();
    push_sources(call, &items, &mut read)?;
    out.text.push_str(&read.text);
    if !call.is_plain() {
        return Ok(());
    }
    let records = Items {
        has_rounds: false,
        ..items
    };
    let (mut by_record, mut without_rounds) = (Output::default(), Output::default());
    records.push(Cursor::new(call.bytes), &mut by_record)?;
    for line in read.text.lines() {
        if !line.starts_with("end of round") {
            writeln!(without_rounds, "{line}");
        }
    }
    out.append_other(&without_rounds, "by next_record", &by_record);
    Ok(())
}
