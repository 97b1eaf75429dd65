//! The bytes of compressed recordings without compression, and their records.

use super::reading::{is_pipe, open};
use crate::language::{Call, Output, Tested};
use crate::library::Global;
use dewikura::linux_perf_data::{Error, PerfFileRecord, RecordPlace};
use dewikura::perfdata_arrays::decompressing::decompress_recording;
use dewikura::perfdata_compressed::{
    ContentEnd, DecompressedFile, DecompressedPipe, is_compressed_file,
};
use std::io::{Cursor, ErrorKind, Read, Seek, SeekFrom};

/// The numbers of bytes that a read returns at most.
const PIECES: [usize; 4] = [1, 7, 4096, usize::MAX];

/// Bytes in pieces.
struct Pieces<'a> {
    bytes: Cursor<&'a [u8]>,
    size: usize,
}

impl Read for Pieces<'_> {
    fn read(&mut self, buf: &mut [u8]) -> std::io::Result<usize> {
        let size = buf.len().min(self.size);
        self.bytes.read(&mut buf[..size])
    }
}

impl Seek for Pieces<'_> {
    fn seek(&mut self, to: SeekFrom) -> std::io::Result<u64> {
        self.bytes.seek(to)
    }
}

/// What a reader returns: its bytes, the text of its error, and where the content ends.
#[derive(PartialEq)]
struct Plain {
    bytes: Vec<u8>,
    error: Option<String>,
    end: ContentEnd,
}

/// Reads all bytes in pieces of this size. After an error the next read has to fail too.
fn read_all<R: Read>(reader: &mut R, size: usize) -> Tested<(Vec<u8>, Option<String>)> {
    let (mut bytes, mut buffer) = (Vec::new(), vec![0; size.min(65536)]);
    loop {
        match reader.read(&mut buffer) {
            Ok(0) => return Ok((bytes, None)),
            Ok(count) => bytes.extend_from_slice(&buffer[..count]),
            Err(error) => {
                let again = reader.read(&mut buffer).map_err(|error| error.to_string());
                if error.kind() != ErrorKind::InvalidData || again != Err(error.to_string()) {
                    return Err("another error, or none the next time".into());
                }
                return Ok((bytes, Some(error.to_string())));
            }
        }
    }
}

/// The bytes of an input, read and returned in pieces of these sizes.
fn plain(is_pipe: bool, bytes: &[u8], input: usize, output: usize) -> Tested<Plain> {
    let source = Pieces {
        bytes: Cursor::new(bytes),
        size: input,
    };
    let ((bytes, error), end) = if is_pipe {
        let mut pipe = DecompressedPipe::new(Global, source)?;
        (read_all(&mut pipe, output)?, pipe.content_end())
    } else {
        let mut file = DecompressedFile::new(Global, source)?;
        let first = read_all(&mut file, output)?;
        file.seek(SeekFrom::Start(0))?;
        if read_all(&mut file, output)? != first {
            return Err("the second reading differs".into());
        }
        (first, file.content_end())
    };
    Ok(Plain { bytes, error, end })
}

/// The line of a record: OFFSET ROUND TIME ATTR TYPE MISC BODYLEN.
fn line(place: RecordPlace, record: &PerfFileRecord<'_>) -> String {
    let shown = |number: Option<u64>| number.map_or("-".into(), |number| number.to_string());
    let (time, attr) = (shown(place.timestamp), shown(record.attr_index().map(|index| index as u64)));
    let (kind, misc, size) = (record.record_type().0, record.misc(), record.body().len());
    format!("{} {} {time} {attr} {kind} {misc} {size}", place.offset, place.round)
}

/// The lines of the records of a reader, and how they end.
fn lines<C: dewikura::linux_perf_data::source::PlacedSource>(is_pipe: bool, source: C) -> Vec<String> {
    let (mut perf_file, mut records) = match open(is_pipe, source) {
        Ok(opened) => opened,
        Err(error) => return vec![format!("open: {error:?}")],
    };
    let mut lines = Vec::new();
    loop {
        match records.next_record(&mut perf_file) {
            Ok(Some((place, record))) => lines.push(line(place, &record)),
            Ok(None) => lines.push("end".into()),
            Err(Error::IoError(error)) if error.kind() == ErrorKind::InvalidData => lines.push(error.to_string()),
            Err(Error::IoError(error)) => lines.push(format!("{:?}", error.kind())),
            Err(error) => lines.push(format!("{error:?}")),
        }
        if !lines.last().is_some_and(|line| line.starts_with(|first: char| first.is_ascii_digit())) {
            return lines;
        }
    }
}

/// The lines of the records of an input without compression.
fn decompressed_lines(is_pipe: bool, bytes: &[u8]) -> Tested<Vec<String>> {
    use dewikura::linux_perf_data::source::Counted;
    Ok(match is_pipe {
        true => {
            // A pipe isn't sought.
            struct Unsought<R>(R);
            impl<R: Read> Read for Unsought<R> {
                fn read(&mut self, buf: &mut [u8]) -> std::io::Result<usize> {
                    self.0.read(buf)
                }
            }
            impl<R> Seek for Unsought<R> {
                fn seek(&mut self, _: SeekFrom) -> std::io::Result<u64> {
                    Err(ErrorKind::NotSeekable.into())
                }
            }
            lines(true, Counted::new(Unsought(DecompressedPipe::new(Global, Cursor::new(bytes))?)))
        }
        false => lines(false, Counted::new(DecompressedFile::new(Global, Cursor::new(bytes))?)),
    })
}

/// The lines of the records of the recording that `decompress_recording` writes.
fn written_lines(is_pipe: bool, bytes: &[u8]) -> Vec<String> {
    let mut array = vec![0; decompress_recording(Global, bytes, &mut []).size as usize];
    decompress_recording(Global, bytes, &mut array);
    lines(is_pipe, Cursor::new(&array[..]))
}

/// The records of an input without compression, and where its content ends. In pieces of any size the bytes are the same. The recording that
/// `decompress_recording` writes has the same records, and an error of kind `Unsupported` in place of one of the content.
pub fn push_decompressed(call: &Call<'_>, out: &mut Output) -> Tested {
    let is_pipe = is_pipe(call.case.call);
    if !is_pipe && !is_compressed_file(Global, &mut Cursor::new(call.bytes))? {
        writeln!(out, "not compressed");
        return Ok(());
    }
    let whole = plain(is_pipe, call.bytes, usize::MAX, usize::MAX)?;
    for (input, output) in PIECES.iter().flat_map(|input| PIECES.map(|output| (*input, output))) {
        if plain(is_pipe, call.bytes, input, output)? != whole {
            writeln!(out, "pieces of {input} and {output} bytes: other bytes");
        }
    }
    let lines = decompressed_lines(is_pipe, call.bytes)?;
    for line in &lines {
        writeln!(out, "{line}");
    }
    match whole.end {
        ContentEnd::Whole | ContentEnd::Error(_) => {}
        ContentEnd::InBlock => writeln!(out, "in a block"),
        ContentEnd::InRecord(size) => writeln!(out, "in a record, of which {size} bytes are there"),
    }
    let mut written = written_lines(is_pipe, call.bytes);
    if let (Some(error), Some(last)) = (&whole.error, written.last_mut())
        && last == "Unsupported"
    {
        last.clone_from(error);
    }
    if written != lines {
        writeln!(out, "written: {}", written.join(", "));
    }
    Ok(())
}
