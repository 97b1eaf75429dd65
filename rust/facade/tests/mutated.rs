//! Mutated recordings: each call returns, without a panic.

use linux_perf_data::jitdump::JitDumpReader;
use linux_perf_data::{PerfFile, PerfFileReader, PerfFileRecord, PerfRecordIter};
use std::fs;
use std::io::{Cursor, Read};
use std::path::{Path, PathBuf};

// A generator of numbers (xorshift).
struct Numbers(u64);

impl Numbers {
    fn next(&mut self) -> u64 {
        self.0 ^= self.0 << 13;
        self.0 ^= self.0 >> 7;
        self.0 ^= self.0 << 17;
        self.0
    }

    fn below(&mut self, end: usize) -> usize {
        (self.next() % end.max(1) as u64) as usize
    }
}

// The recordings of the repository up to this size.
fn recordings(extension: &str, most: u64) -> Vec<PathBuf> {
    let folder = Path::new(env!("CARGO_MANIFEST_DIR")).join("../../tests/recordings");
    let mut paths: Vec<PathBuf> = fs::read_dir(folder)
        .unwrap()
        .map(|entry| entry.unwrap().path())
        .filter(|path| path.extension().is_some_and(|found| found == extension))
        .filter(|path| fs::metadata(path).unwrap().len() <= most)
        .collect();
    paths.sort();
    assert!(!paths.is_empty());
    paths
}

fn mutate(bytes: &mut Vec<u8>, numbers: &mut Numbers) {
    // Most edits are near the start or the end, where headers and sections are.
    for _ in 0..=numbers.below(4) {
        let near = numbers.below(3);
        let len = bytes.len();
        let at = match near {
            0 => numbers.below(len.min(512)),
            1 => len - 1 - numbers.below(len.min(4096)),
            _ => numbers.below(len),
        };
        let count = 1 << numbers.below(4);
        let value = [0, 0xff, 0x80, 1, numbers.next() as u8][numbers.below(5)];
        let end = (at + count).min(len);
        bytes[at..end].fill(value);
    }
    if numbers.below(8) == 0 {
        let len = bytes.len();
        bytes.truncate(1 + numbers.below(len));
    }
}

// Calls everything; the values are those of `tests/compare`.
fn call_metadata(file: &PerfFile) {
    let _ = (
        file.hostname(),
        file.os_release(),
        file.perf_version(),
        file.arch(),
    );
    let _ = (
        file.cpu_desc(),
        file.cpu_id(),
        file.nr_cpus(),
        file.cmdline(),
        file.total_mem(),
    );
    let _ = (
        file.sample_time_range(),
        file.clock_frequency(),
        file.clock_data(),
    );
    let _ = (
        file.compression_info(),
        file.build_ids(),
        file.pmu_mappings(),
    );
    let _ = (file.simpleperf_meta_info(), file.simpleperf_symbol_tables());
    let _ = format!("{:?} {:?}", file.features(), file.event_attributes());
}

fn call_records<R: Read>(file: &mut PerfFile, records: &mut PerfRecordIter<R>) -> usize {
    let mut count = 0;
    while let Ok(Some(record)) = records.next_record(file) {
        count += 1;
        match record {
            PerfFileRecord::EventRecord { attr_index, record } => {
                assert!(attr_index < 1 << 20);
                let _ = format!("{:?} {:?}", record.parse(), record.common_data());
                let _ = (record.timestamp(), record.id());
            }
            PerfFileRecord::UserRecord(record) => {
                let _ = format!("{:?}", record.parse());
            }
        }
    }
    count
}

fn call<R: Read>(reader: Result<PerfFileReader<R>, linux_perf_data::Error>) -> usize {
    let Ok(mut reader) = reader else {
        return 0;
    };
    call_metadata(&reader.perf_file);
    let count = call_records(&mut reader.perf_file, &mut reader.record_iter);
    call_metadata(&reader.perf_file);
    count
}

#[test]
fn mutated_files_and_pipes_are_read() {
    let mut numbers = Numbers(0x1234_5678_9abc_def1);
    let mut read = 0;
    let files = recordings("data", 100_000);
    let pipes = recordings("pipe", 400_000);
    for path in files.iter().chain(&pipes) {
        let whole = fs::read(path).unwrap();
        for _ in 0..40 {
            let mut bytes = whole.clone();
            mutate(&mut bytes, &mut numbers);
            read += call(PerfFileReader::parse_file(Cursor::new(&bytes)));
            read += call(PerfFileReader::parse_pipe(&bytes[..]));
        }
    }
    assert!(read > 1000, "only {read} records were read");
}

#[test]
fn mutated_jitdumps_are_read() {
    let mut numbers = Numbers(0xfeed_beef_0bad_cafe);
    let mut read = 0;
    for path in recordings("dump", 1_000_000) {
        let mut whole = fs::read(path).unwrap();
        whole.truncate(50_000);
        for _ in 0..200 {
            let mut bytes = whole.clone();
            mutate(&mut bytes, &mut numbers);
            let Ok(mut reader) = JitDumpReader::new(Cursor::new(bytes)) else {
                continue;
            };
            while let Ok(Some(record)) = reader.next_record() {
                read += 1;
                let _ = format!("{:?}", record.parse());
            }
            let _ = reader.skip_next_record();
        }
    }
    assert!(read > 1000, "only {read} records were read");
}
