//! Chains of frames, in a process that has a single file mapped.

use super::{machine, registers, table};
use crate::language::{Call, Output, Tested, number};
use crate::library::Global;
use dewikura::code_cfi::{FrameSection, FrameTable};
use dewikura::code_unwind::{
    CodeMap, FileTables, FrameOrigin, MappedCode, Plt, StackCopy, Unwinder,
};
use dewikura::shim::std::alloc::AllocError;

/// A mapping of the file, or a part of the file: the address of its first byte, the size, and the address of this byte in the file.
#[derive(Clone, Copy)]
struct Mapping {
    start: u64,
    size: u64,
    address: u64,
}

impl Mapping {
    /// Parses `START,SIZE` or `START,SIZE,ADDRESS`.
    fn parse(text: &str) -> Tested<Mapping> {
        let numbers = text.split(',').map(number).collect::<Tested<Vec<_>>>()?;
        match numbers[..] {
            [start, size] => Ok(Mapping {
                start,
                size,
                address: start,
            }),
            [start, size, address] => Ok(Mapping {
                start,
                size,
                address,
            }),
            _ => Err(format!("no mapping: {text}").into()),
        }
    }

    /// The address in the file, if an address is in the mapping.
    fn file_address(&self, address: u64) -> Option<u64> {
        let offset = address.wrapping_sub(self.start);
        (offset < self.size).then(|| self.address.wrapping_add(offset))
    }
}

/// Bytes at an address.
#[derive(Clone, Copy, Default)]
struct Part<'a> {
    address: u64,
    bytes: &'a [u8],
}

struct FileMap<'a> {
    executable: Vec<Mapping>,
    others: Vec<Mapping>,
    tables: FileTables,
    lazy_plt: Option<Mapping>,
    direct_plt: Option<Mapping>,
    code: Part<'a>,
}

impl FileMap<'_> {
    /// Where an address in the file is in a procedure linkage table.
    fn plt(&self, address: u64) -> Option<Plt> {
        if let Some(plt) = self
            .lazy_plt
            .filter(|plt| plt.file_address(address).is_some())
        {
            return Some(Plt::Lazy(address - plt.start));
        }
        self.direct_plt
            .and_then(|plt| plt.file_address(address))
            .map(|_| Plt::Direct)
    }

    /// The code from an address in the file on.
    fn code(&self, address: u64) -> &[u8] {
        let offset = address.wrapping_sub(self.code.address) as usize;
        self.code.bytes.get(offset..).unwrap_or(&[])
    }
}

impl CodeMap for FileMap<'_> {
    fn is_executable(&self, address: u64) -> bool {
        self.executable
            .iter()
            .any(|mapping| mapping.file_address(address).is_some())
    }

    fn load(&mut self, _address: u64) -> Result<(), AllocError> {
        Ok(())
    }

    fn place(&self, address: u64) -> MappedCode<'_> {
        let mut mappings = self.executable.iter().chain(&self.others);
        match mappings.find_map(|mapping| mapping.file_address(address)) {
            Some(address) => MappedCode::File {
                tables: &self.tables,
                address,
                plt: self.plt(address),
                code: self.code(address),
            },
            None => MappedCode::Nothing,
        }
    }
}

fn origin_letter(origin: FrameOrigin) -> char {
    match origin {
        FrameOrigin::Registers => 'r',
        FrameOrigin::Cfi => 'c',
        FrameOrigin::SignalFrame => 's',
        FrameOrigin::Plt => 'p',
        FrameOrigin::FramePointer => 'f',
    }
}

/// The parts of the input, of which each has an option with its address, in this order.
fn parts<'a>(call: &Call<'a>) -> Tested<[Option<Part<'a>>; 4]> {
    let mut values = call.arguments()?.into_iter();
    let mut parts = [None; 4];
    for (part, name) in parts
        .iter_mut()
        .zip(["eh_frame", "debug_frame", "code", "copy"])
    {
        if let Some(address) = call.case.number(name)? {
            *part = Some(Part {
                address,
                bytes: values.next().ok_or("a part without its bytes")?,
            });
        }
    }
    match values.next() {
        Some(_) => Err("bytes that are no part".into()),
        None => Ok(parts),
    }
}

/// Prints the chain of frames for each option `registers`, and why it ends.
pub fn push_chains(call: &Call<'_>, out: &mut Output) -> Tested {
    let machine = machine(call)?;
    let [eh_frame, debug_frame, code, copy] = parts(call)?;
    let section = |kind, part: Option<Part<'_>>| -> Tested<Option<FrameTable>> {
        part.map(|part| table(call, kind, part.address, part.bytes))
            .transpose()
    };
    let mappings = |name| {
        call.case
            .values(name)
            .map(Mapping::parse)
            .collect::<Tested<Vec<_>>>()
    };
    let mut map = FileMap {
        executable: mappings("map")?,
        others: mappings("outside")?,
        tables: FileTables::new(
            section(FrameSection::EhFrame, eh_frame)?,
            section(FrameSection::DebugFrame, debug_frame)?,
        ),
        lazy_plt: mappings("plt")?.pop(),
        direct_plt: mappings("plt.sec")?.pop(),
        code: code.unwrap_or_default(),
    };
    let copy = copy.ok_or("a case without a copy of the stack")?;
    let mut unwinder = Unwinder::new(Global);
    for text in call.case.values("registers") {
        let copy = StackCopy {
            address: copy.address,
            bytes: copy.bytes,
        };
        let end = unwinder.unwind(&mut map, machine, &registers(text)?, copy)?;
        for frame in unwinder.frames() {
            write!(out, "{:x}{} ", frame.address, origin_letter(frame.origin));
            if frame.is_signal {
                write!(out, "signal ");
            }
        }
        writeln!(out, "{}", end.name());
    }
    Ok(())
}
