//! Prints the functions and lines at the addresses in standard input, hexadecimal numbers of a file's own, one a line: `example_lines [--mapped] FILE`.
//! Each line has an address, the depth of a function, 0 for the innermost, its linkage name or else its name, and FILE:LINE:COLUMN, with tabs between them.
//! With `--mapped` they are those of the file as a mapped one, with its debug files; without it those of the file alone and of its alternate file. Sections
//! that can't be used, and units, are named on standard error. `tests/check_lines` runs it.

use dewikura::code_dwarf::{DebugInfo, DwarfError};
use dewikura::code_files::{
    DebugSectionReader, FileOptions, MappedFiles, SourceFrame, SourceFrames,
};
use dewikura::code_symbols::{ElfFile, Segment};
use dewikura::perfdata_base::raw::RawData;
use dewikura::perfdata_base::source::CountedBuffer;
use dewikura::perfdata_events::mmap::MmapRecord;
use dewikura::perfdata_spaces::mapping::Mapping;
use dewikura::shim::std::alloc::Global;
use dewikura::shim::std::fs::File;
use dewikura::shim::std::io::BufReader;
use dewikura::shim::std::rt::HostRuntime;
use dewikura::shim::std::vec::Vec as LibraryVec;
use std::env;
use std::error::Error;
use std::io::{self, BufRead, BufWriter, Write};
use std::path::Path;

type Elf = ElfFile<CountedBuffer<File>>;

/// What knows the functions at addresses.
enum Lines<'a> {
    Own(DebugInfo),
    Mapped {
        files: MappedFiles<'a>,
        mapping: Mapping,
        segments: Vec<Segment>,
    },
}

fn open(path: &str) -> Result<Elf, Box<dyn Error>> {
    let reader = BufReader::new(Global, File::open(&HostRuntime, path)?)?;
    Ok(ElfFile::open(Global, CountedBuffer::new(reader))?)
}

/// The debugging information of the file at a path and of its alternate file.
fn read_own(path: &str, mut elf: Elf) -> Result<DebugInfo, Box<dyn Error>> {
    let mut reader = DebugSectionReader::new(Global);
    let alternate = match reader.read_alternate_link(&mut elf)? {
        Some(link) => {
            let directory = Path::new(path).parent().unwrap_or(Path::new(""));
            let name = directory.join(str::from_utf8(&link.path)?);
            let mut alternate = open(name.to_str().unwrap_or(""))?;
            let is_right = alternate.build_id(Global)? == Some(link.build_id);
            is_right.then(|| reader.read_alternate(&mut alternate)).transpose()?
        }
        None => None,
    };
    let info = reader.read(&mut elf, alternate)?;
    if let Some(cause) = reader.take_failure() {
        eprintln!("error: {cause}");
    }
    Ok(info)
}

/// The mapping of a whole file at address 0.
fn mapping_of(path: &str) -> Result<Mapping, Box<dyn Error>> {
    let path = Path::new(path).canonicalize()?;
    let path = path.to_str().ok_or("the path isn't UTF-8")?;
    let record = MmapRecord {
        pid: 1,
        tid: 1,
        address: 0,
        length: u64::MAX,
        page_offset: 0,
        is_data: false,
        path: RawData::Single(path.as_bytes()),
    };
    Ok(Mapping::of_mmap(Global, &record)?)
}

/// The offset in a file with these segments of an address.
fn file_offset(segments: &[Segment], address: u64) -> Option<u64> {
    let contains = |segment: &&Segment| {
        segment.is_executable && address.wrapping_sub(segment.address) < segment.file_size
    };
    let segment = segments.iter().find(contains)?;
    Some(address - segment.address + segment.offset)
}

impl Lines<'_> {
    fn open(path: &str, is_mapped: bool) -> Result<Option<Lines<'static>>, Box<dyn Error>> {
        let elf = open(path)?;
        if elf.is_relocatable() {
            return Ok(None);
        }
        if !is_mapped {
            return Ok(Some(Lines::Own(read_own(path, elf)?)));
        }
        let options = FileOptions {
            symfs: None,
            debug_dir: None,
            maps: None,
            vdso: None,
        };
        let Ok(mut files) = MappedFiles::open(&HostRuntime, Some(&options)) else {
            return Err("a directory can't be opened".into());
        };
        files.want_lines();
        let segments = elf.segments().to_vec();
        let mapping = mapping_of(path)?;
        Ok(Some(Lines::Mapped {
            files,
            mapping,
            segments,
        }))
    }

    fn find(&mut self, address: u64) -> Result<Option<SourceFrames<'_>>, Box<dyn Error>> {
        match self {
            Lines::Own(info) => Ok(Some(info.find(address)?)),
            Lines::Mapped {
                files,
                mapping,
                segments,
            } => match file_offset(segments, address) {
                Some(offset) => Ok(files.find_source(0, mapping, offset)?),
                None => Ok(None),
            },
        }
    }

    fn print_errors(&self) {
        match self {
            Lines::Own(info) => {
                for error in info.errors().iter().filter(|error| error.error != DwarfError::SplitUnit) {
                    eprintln!("error: unit {:#x}: {}", error.unit, error.error);
                }
            }
            Lines::Mapped { files, .. } => {
                eprintln!("split units: {}", files.split_units());
                eprintln!("errors of other units: {}", files.unreadable_units());
                eprintln!("problems of files: {}", files.problems().len());
            }
        }
    }
}

fn write_frame<W: Write>(frame: &SourceFrame<'_>, output: &mut W) -> Result<(), Box<dyn Error>> {
    output.write_all(frame.linkage_name.or(frame.name).unwrap_or(b"?"))?;
    let mut path = LibraryVec::new(Global);
    match frame.path {
        Some(found) => found.write_to(&mut path)?,
        None => path.push(b'?')?,
    }
    output.write_all(b"\t")?;
    output.write_all(&path)?;
    Ok(writeln!(output, ":{}:{}", frame.line, frame.column)?)
}

fn main() -> Result<(), Box<dyn Error>> {
    let mut arguments: Vec<String> = env::args().skip(1).collect();
    let is_mapped = arguments.first().is_some_and(|first| first == "--mapped");
    let path = arguments.pop().ok_or("usage: example_lines [--mapped] FILE")?;
    let mut output = BufWriter::new(io::stdout().lock());
    let Some(mut lines) = Lines::open(&path, is_mapped)? else {
        writeln!(output, "refused\trelocatable")?;
        return Ok(());
    };
    for word in io::stdin().lock().lines() {
        let word = word?;
        let address = u64::from_str_radix(word.trim_start_matches("0x"), 16)?;
        let frames = lines.find(address)?;
        let count = frames.map_or(0, |frames| frames.len());
        if count == 0 {
            writeln!(output, "{word}\t0\t?\t?:0:0")?;
        }
        for (depth, frame) in (0..count).filter_map(|depth| Some((depth, frames?.get(depth)?))) {
            write!(output, "{word}\t{depth}\t")?;
            write_frame(&frame, &mut output)?;
        }
    }
    output.flush()?;
    lines.print_errors();
    Ok(())
}
