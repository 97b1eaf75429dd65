//! The records of a round are returned before a byte after its marker is read.

use linux_perf_data::PerfFileReader;
use std::cell::Cell;
use std::fs;
use std::io::{self, Read};
use std::path::Path;
use std::rc::Rc;

// A line for each marker: a pipe, the byte after the marker, and how many records are returned before this byte is
// read. The numbers are those of the crate linux-perf-data, as a second reader counts them.
const ROUNDS: &str = include_str!("rounds/rounds.tsv");

// A pipe that has no byte after a marker yet.
struct LivePipe<'a> {
    unread: &'a [u8],
    // How many bytes are returned at once.
    piece: usize,
    // Whether the next byte was asked for. It must not be if there is none.
    asked: Option<Rc<Cell<bool>>>,
}

impl Read for LivePipe<'_> {
    fn read(&mut self, buf: &mut [u8]) -> io::Result<usize> {
        let count = buf.len().min(self.piece).min(self.unread.len());
        if count == 0 && !buf.is_empty() {
            let asked = self.asked.as_ref();
            asked.expect("a byte after the marker is read").set(true);
        }
        let (front, unread) = self.unread.split_at(count);
        buf[..count].copy_from_slice(front);
        self.unread = unread;
        Ok(count)
    }
}

fn open(bytes: &[u8], piece: usize, asked: Option<Rc<Cell<bool>>>) -> PerfFileReader<LivePipe<'_>> {
    PerfFileReader::parse_pipe(LivePipe {
        unread: bytes,
        piece,
        asked,
    })
    .unwrap()
}

// The number of records that are returned before the next byte is asked for.
fn count_released(bytes: &[u8], piece: usize) -> usize {
    let asked = Rc::new(Cell::new(false));
    let mut reader = open(bytes, piece, Some(asked.clone()));
    let mut count = 0;
    loop {
        let record = reader.record_iter.next_record(&mut reader.perf_file);
        if asked.get() || record.unwrap().is_none() {
            return count;
        }
        count += 1;
    }
}

// Reads this number of records of a pipe whose next byte must not be asked for.
fn read_records(bytes: &[u8], piece: usize, count: usize) {
    let mut reader = open(bytes, piece, None);
    for _ in 0..count {
        let record = reader.record_iter.next_record(&mut reader.perf_file);
        assert!(record.unwrap().is_some());
    }
}

#[test]
fn a_round_is_returned_before_a_byte_after_its_marker_is_read() {
    let tests = Path::new(env!("CARGO_MANIFEST_DIR")).join("tests");
    for line in ROUNDS.lines().filter(|line| !line.starts_with('#')) {
        let fields: Vec<&str> = line.split('\t').collect();
        let [name, end, count] = fields[..] else {
            panic!("three fields: {line}");
        };
        if name.contains("zstd") && !cfg!(feature = "zstd") {
            continue;
        }
        let pipe = fs::read(tests.join(name)).unwrap();
        let bytes = &pipe[..end.parse().unwrap()];
        let count = count.parse().unwrap();
        for piece in [usize::MAX, 7, 1] {
            assert_eq!(count_released(bytes, piece), count, "{line} by {piece}");
            read_records(bytes, piece, count);
        }
    }
}
