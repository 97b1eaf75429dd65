//! Readers that return few bytes, none for a while, or errors.

use linux_perf_data::jitdump::JitDumpReader;
use linux_perf_data::{Error, PerfFileReader, PerfFileRecord};
use std::cell::RefCell;
use std::io::{self, Cursor, ErrorKind, Read, Seek, SeekFrom};
use std::path::{Path, PathBuf};
use std::rc::Rc;

fn recording(name: &str) -> PathBuf {
    Path::new(env!("CARGO_MANIFEST_DIR")).join(format!("../../tests/recordings/{name}"))
}

// A reader that returns one byte at a time, and is interrupted before each.
struct Slow {
    bytes: Cursor<Vec<u8>>,
    interrupted: bool,
}

impl Slow {
    fn new(bytes: Vec<u8>) -> Self {
        Slow {
            bytes: Cursor::new(bytes),
            interrupted: false,
        }
    }
}

impl Read for Slow {
    fn read(&mut self, buf: &mut [u8]) -> io::Result<usize> {
        self.interrupted = !self.interrupted;
        if self.interrupted {
            return Err(ErrorKind::Interrupted.into());
        }
        let count = buf.len().min(1);
        self.bytes.read(&mut buf[..count])
    }
}

impl Seek for Slow {
    fn seek(&mut self, to: SeekFrom) -> io::Result<u64> {
        self.bytes.seek(to)
    }
}

// The records of a reader, as texts.
fn texts<R: Read>(mut reader: PerfFileReader<R>) -> Vec<String> {
    let mut texts = Vec::new();
    while let Some(record) = reader
        .record_iter
        .next_record(&mut reader.perf_file)
        .unwrap()
    {
        texts.push(match record {
            PerfFileRecord::EventRecord { attr_index, record } => {
                format!("{attr_index} {record:?} {:?}", record.parse())
            }
            PerfFileRecord::UserRecord(record) => format!("{record:?}"),
        });
    }
    texts
}

#[test]
fn one_byte_at_a_time_gives_the_same_records() {
    let file = std::fs::read(recording("several.data")).unwrap();
    let whole = texts(PerfFileReader::parse_file(Cursor::new(file.clone())).unwrap());
    let slow = texts(PerfFileReader::parse_file(Slow::new(file)).unwrap());
    assert!(whole.len() > 10);
    assert_eq!(whole, slow);
    let pipe = std::fs::read(recording("several.pipe")).unwrap();
    let whole = texts(PerfFileReader::parse_pipe(&pipe[..]).unwrap());
    let slow = texts(PerfFileReader::parse_pipe(Slow::new(pipe)).unwrap());
    assert!(whole.len() > 10);
    assert_eq!(whole, slow);
}

#[test]
fn a_borrowed_reader_is_read() {
    let file = std::fs::read(recording("first.data")).unwrap();
    let mut cursor = Cursor::new(file.clone());
    let borrowed = texts(PerfFileReader::parse_file(&mut cursor).unwrap());
    assert_eq!(
        borrowed,
        texts(PerfFileReader::parse_file(Cursor::new(file)).unwrap())
    );
}

// Bytes, and an error after them.
struct Broken(Cursor<Vec<u8>>);

impl Read for Broken {
    fn read(&mut self, buf: &mut [u8]) -> io::Result<usize> {
        match self.0.read(buf)? {
            0 => Err(ErrorKind::ConnectionReset.into()),
            count => Ok(count),
        }
    }
}

#[test]
fn an_error_of_the_reader_follows_the_records_before_it() {
    let pipe = std::fs::read(recording("several.pipe")).unwrap();
    let count = texts(PerfFileReader::parse_pipe(&pipe[..]).unwrap()).len();
    let mut reader = PerfFileReader::parse_pipe(Broken(Cursor::new(pipe))).unwrap();
    let mut found = 0;
    let error = loop {
        match reader.record_iter.next_record(&mut reader.perf_file) {
            Ok(Some(_)) => found += 1,
            Ok(None) => panic!("the error is lost"),
            Err(error) => break error,
        }
    };
    assert_eq!(found, count);
    assert!(matches!(error, Error::IoError(error) if error.kind() == ErrorKind::ConnectionReset));
    let again = reader.record_iter.next_record(&mut reader.perf_file);
    assert!(matches!(again, Err(Error::Failed)));
}

// A file to which another part of the program appends.
#[derive(Clone, Default)]
struct Growing {
    bytes: Rc<RefCell<Vec<u8>>>,
    position: usize,
}

impl Read for Growing {
    fn read(&mut self, buf: &mut [u8]) -> io::Result<usize> {
        let bytes = self.bytes.borrow();
        let count = (&bytes[self.position..]).read(buf)?;
        self.position += count;
        Ok(count)
    }
}

#[test]
fn a_jitdump_is_read_while_it_grows() {
    let whole = std::fs::read(recording("node.dump")).unwrap();
    let mut reader = JitDumpReader::new(Cursor::new(&whole)).unwrap();
    let mut wanted = Vec::new();
    while let Some(record) = reader.next_record().unwrap() {
        wanted.push((record.start_offset, record.record_size, record.timestamp));
    }
    let file = Growing::default();
    file.bytes.borrow_mut().extend_from_slice(&whole[..40]);
    let mut reader = JitDumpReader::new(file.clone()).unwrap();
    let mut found = Vec::new();
    for part in whole[40..].chunks(1009) {
        file.bytes.borrow_mut().extend_from_slice(part);
        while let Some(record) = reader.next_record().unwrap() {
            found.push((record.start_offset, record.record_size, record.timestamp));
        }
    }
    assert!(wanted.len() > 10);
    assert_eq!(found, wanted);
}
