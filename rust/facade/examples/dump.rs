//! `dump file PATH`, `dump pipe PATH`, `dump jit PATH`: prints everything that the crate returns for an input:
//! metadata, records with their parsed bodies, and the error at the end if there is one. `tests/compare` builds
//! it with this crate and with linux-perf-data, and compares what both print.

use linux_perf_data::jitdump::{JitDumpError, JitDumpReader, JitDumpRecord};
use linux_perf_data::linux_perf_event_reader::{EventRecord, RawData, RawEventRecord};
use linux_perf_data::{
    Error, PerfFile, PerfFileReader, PerfFileRecord, PerfRecordIter, RawUserRecord, UserRecord,
};
use std::collections::HashMap;
use std::fmt::Debug;
use std::fs::File;
use std::io::{self, BufReader, BufWriter, Read, Write};
use std::panic::{AssertUnwindSafe, catch_unwind};

// A hash of bytes (FNV-1a).
fn hash(bytes: &[u8]) -> u64 {
    bytes.iter().fold(0xcbf2_9ce4_8422_2325, |hash, byte| {
        (hash ^ u64::from(*byte)).wrapping_mul(0x100_0000_01b3)
    })
}

fn bytes_of(data: &RawData<'_>) -> String {
    let bytes = data.as_slice();
    format!("{} bytes {:016x}", bytes.len(), hash(&bytes))
}

// An error without the text that a reader or a decoder gives it.
fn error_text(error: &Error) -> String {
    match error {
        Error::IoError(error) => format!("IoError({:?})", error.kind()),
        Error::ParsingSimpleperfFileV1Section(error) => format!("V1({:?})", error.kind()),
        Error::ProtobufParsingSimpleperfFileSection(_) => "Protobuf".to_string(),
        other => format!("{other:?}"),
    }
}

fn value<T: Debug>(out: &mut impl Write, name: &str, value: Result<T, Error>) -> io::Result<()> {
    match value {
        Ok(value) => writeln!(out, "{name}: {value:?}"),
        Err(error) => writeln!(out, "{name}: error {}", error_text(&error)),
    }
}

fn sorted(map: HashMap<&str, &str>) -> Vec<(String, String)> {
    let mut pairs: Vec<_> = map
        .into_iter()
        .map(|(key, value)| (key.to_string(), value.to_string()))
        .collect();
    pairs.sort();
    pairs
}

fn dump_attributes(out: &mut impl Write, file: &PerfFile) -> io::Result<()> {
    for (index, description) in file.event_attributes().iter().enumerate() {
        writeln!(out, "attribute {index}: {:?}", description.attributes())?;
        let (name, ids) = (description.name(), description.ids());
        writeln!(out, "attribute {index} name and ids: {name:?} {ids:?}")?;
    }
    Ok(())
}

fn dump_metadata(out: &mut impl Write, file: &PerfFile) -> io::Result<()> {
    writeln!(out, "endian: {:?}", file.endian())?;
    let features = file.features();
    writeln!(out, "features: {} {features:?}", features.len())?;
    for feature in features.iter() {
        let data = file.feature_section_data(feature).unwrap_or(b"none");
        writeln!(out, "feature {feature}: {} {:016x}", data.len(), hash(data))?;
    }
    value(out, "hostname", file.hostname())?;
    value(out, "os_release", file.os_release())?;
    value(out, "perf_version", file.perf_version())?;
    value(out, "arch", file.arch())?;
    value(out, "nr_cpus", file.nr_cpus())?;
    value(out, "cpu_desc", file.cpu_desc())?;
    value(out, "cpu_id", file.cpu_id())?;
    value(out, "is_stats", Ok(file.is_stats()))?;
    value(out, "cmdline", file.cmdline())?;
    value(out, "total_mem", file.total_mem())?;
    value(out, "clock_frequency", file.clock_frequency())?;
    value(out, "clock_data", file.clock_data())?;
    value(out, "compression_info", file.compression_info())?;
    value(out, "sample_time_range", file.sample_time_range())?;
    let units = file.pmu_mappings().map(|units| {
        units.map(|units| -> Vec<(u32, String)> {
            units
                .0
                .iter()
                .map(|(number, name)| (*number, name.clone()))
                .collect()
        })
    });
    value(out, "pmu_mappings", units)?;
    let ids = file.build_ids().map(|ids| {
        let mut lines: Vec<_> = ids.iter().map(|entry| format!("{entry:?}")).collect();
        lines.sort();
        lines
    });
    value(out, "build_ids", ids)?;
    let info = file.simpleperf_meta_info().map(|info| info.map(sorted));
    value(out, "simpleperf_meta_info", info)?;
    match file.simpleperf_symbol_tables() {
        Ok(tables) => {
            for table in tables.unwrap_or_default() {
                let (path, kind, start) = (table.path, table.r#type, table.min_vaddr);
                let info = format!("{:?}", table.type_specific_msg);
                writeln!(out, "table {path} {kind} {start:x} {info}")?;
                for symbol in table.symbol {
                    writeln!(
                        out,
                        "symbol {:x} {} {}",
                        symbol.vaddr, symbol.len, symbol.name
                    )?;
                }
            }
        }
        Err(error) => writeln!(out, "tables: error {}", error_text(&error))?,
    }
    Ok(())
}

fn dump_parsed(out: &mut impl Write, record: &RawEventRecord<'_>) -> io::Result<()> {
    let Ok(parsed) = catch_unwind(AssertUnwindSafe(|| record.parse())) else {
        return writeln!(out, "  parsed: panic");
    };
    match parsed {
        Ok(EventRecord::Mmap2(mmap)) => {
            writeln!(out, "  parsed: {mmap:?} {:?}", mmap.file_id)?;
        }
        Ok(EventRecord::Mmap(mmap)) => {
            writeln!(out, "  parsed: {mmap:?} executable {}", mmap.is_executable)?;
        }
        Ok(EventRecord::Sample(sample)) => {
            writeln!(out, "  parsed: {sample:?}")?;
            if let Some(raw) = &sample.raw {
                writeln!(out, "  raw: {}", bytes_of(raw))?;
            }
            if let Some((stack, size)) = &sample.user_stack {
                writeln!(out, "  stack: {size} of {}", bytes_of(stack))?;
            }
            if let Some(registers) = &sample.user_regs {
                let values: Vec<_> = (0..64).filter_map(|bit| registers.get(bit)).collect();
                writeln!(out, "  registers: {values:x?}")?;
            }
        }
        Ok(other) => writeln!(out, "  parsed: {other:?}")?,
        Err(error) => writeln!(out, "  parsed: error {:?}", error.kind())?,
    }
    Ok(())
}

fn dump_user(out: &mut impl Write, record: &RawUserRecord<'_>) -> io::Result<()> {
    let Ok(parsed) = catch_unwind(AssertUnwindSafe(|| record.parse())) else {
        return writeln!(out, "  parsed: panic");
    };
    match parsed {
        Ok(UserRecord::HeaderAttr(header)) => {
            writeln!(out, "  parsed: {:?} {:?}", header.attr, header.ids)
        }
        Ok(UserRecord::HeaderFeature(header)) => {
            let (feature, data) = (header.feature, &header.data);
            writeln!(
                out,
                "  parsed: {feature} {} {:016x}",
                data.len(),
                hash(data)
            )
        }
        Ok(UserRecord::ThreadMap(map)) => {
            let threads: Vec<_> = map.iter().collect();
            writeln!(out, "  parsed: {} threads {threads:?}", map.len())
        }
        Ok(UserRecord::Auxtrace(trace)) => {
            writeln!(out, "  parsed: {trace:?} {}", bytes_of(&trace.aux_data))
        }
        Ok(UserRecord::Raw(_)) => writeln!(out, "  parsed: raw"),
        Ok(_) => writeln!(out, "  parsed: other"),
        Err(error) => writeln!(out, "  parsed: error {:?}", error.kind()),
    }
}

fn dump_records<R: Read>(
    out: &mut impl Write,
    file: &mut PerfFile,
    records: &mut PerfRecordIter<R>,
) -> io::Result<()> {
    loop {
        match records.next_record(file) {
            Ok(Some(PerfFileRecord::EventRecord { attr_index, record })) => {
                let (record_type, misc) = (record.record_type, record.misc);
                write!(out, "record: {attr_index} {record_type:?} {misc:#x} ")?;
                write!(out, "{} ", bytes_of(&record.data))?;
                writeln!(out, "{:?} {:?}", record.timestamp(), record.id())?;
                match record.common_data() {
                    Ok(common) => writeln!(out, "  common: {common:?}")?,
                    Err(error) => writeln!(out, "  common: error {:?}", error.kind())?,
                }
                dump_parsed(out, &record)?;
            }
            Ok(Some(PerfFileRecord::UserRecord(record))) => {
                let (record_type, misc) = (record.record_type, record.misc);
                write!(
                    out,
                    "record: {record_type:?} {misc:#x} {:?} ",
                    record.endian
                )?;
                writeln!(out, "{}", bytes_of(&record.data))?;
                dump_user(out, &record)?;
            }
            Ok(None) => return writeln!(out, "record: end"),
            Err(error) => return writeln!(out, "record: error {}", error_text(&error)),
        }
    }
}

fn dump_reader<R: Read>(
    out: &mut impl Write,
    opened: std::thread::Result<Result<PerfFileReader<R>, Error>>,
) -> io::Result<()> {
    let mut reader = match opened {
        Ok(Ok(reader)) => reader,
        Ok(Err(error)) => return writeln!(out, "open: error {}", error_text(&error)),
        Err(_) => return writeln!(out, "open: panic"),
    };
    writeln!(out, "open: ok")?;
    dump_attributes(out, &reader.perf_file)?;
    dump_metadata(out, &reader.perf_file)?;
    let (file, records) = (&mut reader.perf_file, &mut reader.record_iter);
    match catch_unwind(AssertUnwindSafe(|| dump_records(out, file, records))) {
        Ok(result) => result?,
        Err(_) => writeln!(out, "record: panic")?,
    }
    writeln!(out, "after the records:")?;
    dump_attributes(out, &reader.perf_file)?;
    writeln!(out, "features: {:?}", reader.perf_file.features())
}

fn dump_jit_record(out: &mut impl Write, record: &JitDumpRecord<'_>) -> io::Result<()> {
    match record {
        JitDumpRecord::CodeLoad(load) => {
            let name = load.function_name.as_slice();
            write!(out, "  load: {} {} {:x} ", load.pid, load.tid, load.vma)?;
            write!(out, "{:x} {} ", load.code_addr, load.code_index)?;
            writeln!(
                out,
                "{} {}",
                String::from_utf8_lossy(&name),
                bytes_of(&load.code_bytes)
            )
        }
        JitDumpRecord::CodeDebugInfo(info) => {
            writeln!(out, "  debug info: {:x}", info.code_addr)?;
            for entry in &info.entries {
                let (line, column) = (entry.line, entry.column);
                let path = bytes_of(&entry.file_path);
                writeln!(out, "    {:x} {line} {column} {path}", entry.code_addr)?;
            }
            let found = info.lookup(info.code_addr).map(|entry| entry.line);
            writeln!(out, "    first line {found:?}")
        }
        JitDumpRecord::CodeUnwindingInfo(info) => {
            let (header, frames) = (bytes_of(&info.eh_frame_hdr), bytes_of(&info.eh_frame));
            writeln!(
                out,
                "  unwinding info: {} {header} {frames}",
                info.mapped_size
            )
        }
        JitDumpRecord::CodeMove(moved) => writeln!(out, "  {moved:?}"),
        JitDumpRecord::CodeClose => writeln!(out, "  close"),
        JitDumpRecord::Other(other) => writeln!(out, "  other {}", other.record_type.0),
    }
}

fn dump_jit_records<R: Read>(
    out: &mut impl Write,
    reader: &mut JitDumpReader<R>,
) -> io::Result<()> {
    loop {
        match reader.next_record() {
            Ok(Some(record)) => {
                let (at, size, time) = (record.start_offset, record.record_size, record.timestamp);
                let kind = record.record_type;
                writeln!(
                    out,
                    "record: {at} {size} {time} {kind:?} {}",
                    bytes_of(&record.body)
                )?;
                match catch_unwind(AssertUnwindSafe(|| record.parse())) {
                    Ok(Ok(parsed)) => dump_jit_record(out, &parsed)?,
                    Ok(Err(error)) => writeln!(out, "  error {:?}", error.kind())?,
                    Err(_) => writeln!(out, "  panic")?,
                }
            }
            Ok(None) => return writeln!(out, "record: end at {}", reader.next_record_offset()),
            Err(error) => return writeln!(out, "record: error {:?}", error.kind()),
        }
    }
}

fn dump_jit(out: &mut impl Write, path: &str) -> io::Result<()> {
    let file = File::open(path)?;
    let mut reader = match catch_unwind(AssertUnwindSafe(|| JitDumpReader::new(file))) {
        Ok(Ok(reader)) => reader,
        Ok(Err(JitDumpError::Io(error))) => {
            return writeln!(out, "open: error Io({:?})", error.kind());
        }
        Ok(Err(error)) => return writeln!(out, "open: error {error:?}"),
        Err(_) => return writeln!(out, "open: panic"),
    };
    writeln!(out, "open: {:?} {:?}", reader.header(), reader.endian())?;
    match catch_unwind(AssertUnwindSafe(|| dump_jit_records(out, &mut reader))) {
        Ok(result) => result,
        Err(_) => writeln!(out, "record: panic"),
    }
}

fn main() -> io::Result<()> {
    let arguments: Vec<String> = std::env::args().skip(1).collect();
    let [kind, path] = arguments.as_slice() else {
        panic!("usage: dump file|pipe|jit PATH");
    };
    std::panic::set_hook(Box::new(|_| {}));
    let mut out = BufWriter::new(io::stdout().lock());
    match kind.as_str() {
        "jit" => dump_jit(&mut out, path)?,
        "pipe" => {
            let input = BufReader::new(File::open(path)?);
            let opened = catch_unwind(|| PerfFileReader::parse_pipe(input));
            dump_reader(&mut out, opened)?;
        }
        _ => {
            let input = BufReader::new(File::open(path)?);
            let opened = catch_unwind(|| PerfFileReader::parse_file(input));
            dump_reader(&mut out, opened)?;
        }
    }
    out.flush()
}
