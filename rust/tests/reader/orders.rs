//! Records in order of time, and the sorter below them.

use super::reading::{Next, is_pipe, open, open_in_memory};
use crate::language::{Call, Output, Tested, number};
use crate::library::{BufReader, Global};
use dewikura::linux_perf_data::{Error, PerfFile, PerfFileReader};
use dewikura::perfdata_base::source::Counted;
use dewikura::perfdata_order::in_memory::InMemoryOrderedRecords;
use dewikura::perfdata_order::sorter::Sorter;
use dewikura::perfdata_order::streaming::OrderedRecords;
use std::cell::Cell;
use std::io::{self, Read};
use std::rc::Rc;

/// Appends the line of a record, with its body or its body's size, or how the records end. Returns whether there is a record.
fn push_next(out: &mut Output, has_sizes: bool, next: Next<'_>) -> bool {
    match next {
        Ok(Some((place, record))) => {
            let kind = (record.attr_index(), record.record_type().0, record.misc());
            let (offset, round, time) = (place.offset, place.round, place.timestamp);
            match has_sizes {
                true => out.push_line(&(offset, round, time, kind, record.body().len())),
                false => out.push_line(&(offset, round, time, kind, record.body())),
            }
            return true;
        }
        Ok(None) => writeln!(out, "end"),
        Err(error) => out.push_result(&Err::<(), _>(error)),
    }
    false
}

/// Appends the lines of all records, how they end, and the result of the next call, each with the number of records that were returned
/// early.
fn push_all<R>(
    out: &mut Output,
    opened: Result<(PerfFile, R), Error>,
    mut push: impl FnMut(&mut R, &mut PerfFile, &mut Output) -> (bool, u64),
) {
    let (mut perf_file, mut records) = match opened {
        Ok(opened) => opened,
        Err(error) => return out.push_result(&Err::<(), _>(error)),
    };
    let mut ends = 0;
    while ends < 2 {
        let (is_record, early) = push(&mut records, &mut perf_file, out);
        if !is_record && early != 0 {
            writeln!(out, "early {early}");
        }
        if ends == 1 || !is_record {
            ends += 1;
        }
    }
}

/// The records of a source in order of time, with a budget unless it is 0. Those of the input in memory follow if they differ, unless
/// the source has steps or there is a budget.
pub fn push_ordered(call: &Call<'_>, out: &mut Output) -> Tested {
    let (is_pipe, has_sizes) = (is_pipe(call.case.call), call.case.has("sizes"));
    let budget = call.case.number("budget")?.unwrap_or(0);
    let opened = open(is_pipe, call.script()).map(|(perf_file, records)| match budget {
        0 => (perf_file, OrderedRecords::new(Global, records)),
        _ => (
            perf_file,
            OrderedRecords::with_budget(Global, records, budget),
        ),
    });
    push_all(out, opened, |records, perf_file, out| {
        let is_record = push_next(out, has_sizes, records.next_record(perf_file));
        (is_record, records.early())
    });
    if budget != 0 || !call.steps.is_empty() {
        return Ok(());
    }
    let opened = open_in_memory(is_pipe, call.bytes);
    let opened = opened
        .map(|(perf_file, records)| (perf_file, InMemoryOrderedRecords::new(Global, records)));
    let mut in_memory = Output::default();
    push_all(&mut in_memory, opened, |records, perf_file, out| {
        (push_next(out, has_sizes, records.next_record(perf_file)), 0)
    });
    let first = out.clone();
    out.append_other(&first, "in memory", &in_memory);
    Ok(())
}

/// A reader that returns its bytes one by one and counts them.
struct SingleBytes<'a> {
    bytes: &'a [u8],
    count: Rc<Cell<usize>>,
}

impl Read for SingleBytes<'_> {
    fn read(&mut self, buf: &mut [u8]) -> io::Result<usize> {
        let Some((first, rest)) = self.bytes.split_first() else {
            return Ok(0);
        };
        buf[0] = *first;
        self.bytes = rest;
        self.count.set(self.count.get() + 1);
        Ok(1)
    }
}

/// The records of a pipe in order of time: how many bytes of the pipe were read before each was returned, its offset and its round.
pub fn push_reads(call: &Call<'_>, out: &mut Output) -> Tested {
    let count = Rc::new(Cell::new(0));
    let reader = SingleBytes {
        bytes: call.bytes,
        count: count.clone(),
    };
    let source = Counted::new(BufReader::with_capacity(Global, 1, reader)?);
    let reader = PerfFileReader::parse_pipe(Global, source)?;
    let mut perf_file = reader.perf_file;
    let mut records = OrderedRecords::new(Global, reader.record_iter);
    while let Some((place, _)) = records.next_record(&mut perf_file)? {
        out.push_line(&(count.get(), place.offset, place.round));
    }
    out.push_line(&count.get());
    Ok(())
}

/// Makes the calls of the option `calls` on a sorter whose values are their keys and the indices of their insertion: the names of its
/// methods, and keys, which are inserted. `get_all` takes all values that are available.
pub fn push_sorted(call: &Call<'_>, out: &mut Output) -> Tested {
    let mut sorter: Sorter<u64, (u64, usize)> = Sorter::new(Global);
    for (index, word) in call
        .case
        .option("calls")
        .unwrap_or("")
        .split(',')
        .enumerate()
    {
        match word {
            "finish_round" => sorter.finish_round()?,
            "finish" => sorter.finish()?,
            "release_half" => sorter.release_half()?,
            "get_all" => {
                write!(out, "values");
                while let Some((key, index)) = sorter.get_next() {
                    write!(out, " {key}#{index}");
                }
                writeln!(out);
            }
            "has_more" => out.push_line(&sorter.has_more()),
            "is_empty" => out.push_line(&sorter.is_empty()),
            _ => {
                let key = number(word)?;
                sorter.insert_unordered(key, (key, index))?;
            }
        }
    }
    Ok(())
}
