//! What Android's simpleperf adds to a file.

use crate::convert;
use crate::inner;
use byteorder::{BigEndian, ByteOrder, LittleEndian};
use std::io;

/// The values of [`SimpleperfFileRecord`]'s field `type`.
pub mod simpleperf_dso_type {
    pub use crate::inner::simpleperf_dso_type::{
        DSO_DEX_FILE, DSO_ELF_FILE, DSO_KERNEL, DSO_KERNEL_MODULE, DSO_SYMBOL_MAP_FILE,
        DSO_UNKNOWN_FILE,
    };
}

/// A file that simpleperf recorded, with its symbols.
#[derive(Clone, Debug, Default, PartialEq, Eq)]
pub struct SimpleperfFileRecord {
    /// The path of the file.
    pub path: String,
    /// The type of the file ([`simpleperf_dso_type`]).
    pub r#type: u32,
    /// The lowest address of the file's code.
    pub min_vaddr: u64,
    /// The symbols.
    pub symbol: Vec<SimpleperfSymbol>,
    /// Information that depends on the type.
    pub type_specific_msg: Option<SimpleperfTypeSpecificInfo>,
}

/// A symbol of a file.
#[derive(Clone, Debug, Default, PartialEq, Eq)]
pub struct SimpleperfSymbol {
    /// The address in the file's own address space.
    pub vaddr: u64,
    /// The size in bytes.
    pub len: u32,
    /// The name.
    pub name: String,
}

/// Information on a file with DEX code.
#[derive(Clone, Debug, Default, PartialEq, Eq)]
pub struct SimpleperfDexFileInfo {
    /// The offsets of the DEX files in the file, in bytes.
    pub dex_file_offset: Vec<u64>,
}

/// Information on an ELF file.
#[derive(Clone, Debug, Default, PartialEq, Eq)]
pub struct SimpleperfElfFileInfo {
    /// The offset of the code's lowest address in the file, in bytes.
    pub file_offset_of_min_vaddr: u64,
}

/// Information on a module of the kernel.
#[derive(Clone, Debug, Default, PartialEq, Eq)]
pub struct SimpleperfKernelModuleInfo {
    /// The offset of the code's lowest address in the module's memory, in bytes.
    pub memory_offset_of_min_vaddr: u64,
}

/// Information that depends on the type of a file.
#[derive(Clone, Debug, PartialEq, Eq)]
pub enum SimpleperfTypeSpecificInfo {
    /// On a file with DEX code.
    SimpleperfDexFileInfo(SimpleperfDexFileInfo),
    /// On an ELF file.
    ElfFile(SimpleperfElfFileInfo),
    /// On a module of the kernel.
    KernelModule(SimpleperfKernelModuleInfo),
}

impl From<inner::SimpleperfFileRecord> for SimpleperfFileRecord {
    fn from(file: inner::SimpleperfFileRecord) -> Self {
        let symbols = file.symbol.into_iter().map(|symbol| SimpleperfSymbol {
            vaddr: symbol.vaddr,
            len: symbol.len,
            name: inner::std_string(symbol.name),
        });
        Self {
            path: inner::std_string(file.path),
            r#type: file.type_,
            min_vaddr: file.min_vaddr,
            symbol: symbols.collect(),
            type_specific_msg: file.type_specific_msg.map(Into::into),
        }
    }
}

impl From<inner::SimpleperfTypeSpecificInfo> for SimpleperfTypeSpecificInfo {
    fn from(info: inner::SimpleperfTypeSpecificInfo) -> Self {
        use inner::SimpleperfTypeSpecificInfo as Inner;
        match info {
            Inner::SimpleperfDexFileInfo(dex) => {
                Self::SimpleperfDexFileInfo(SimpleperfDexFileInfo {
                    dex_file_offset: inner::std_vec(dex.dex_file_offset),
                })
            }
            Inner::ElfFile(elf) => Self::ElfFile(SimpleperfElfFileInfo {
                file_offset_of_min_vaddr: elf.file_offset_of_min_vaddr,
            }),
            Inner::KernelModule(module) => Self::KernelModule(SimpleperfKernelModuleInfo {
                memory_offset_of_min_vaddr: module.memory_offset_of_min_vaddr,
            }),
        }
    }
}

impl SimpleperfFileRecord {
    /// Decodes a record of the section SIMPLEPERF_FILE, as older simpleperf writes it, with numbers in the
    /// byte order `T`.
    ///
    /// It fails with `UnexpectedEof` if a part is truncated, with `InvalidData` if a string isn't UTF-8, the
    /// type isn't known or a count is above the number of the bytes after it, and with `OutOfMemory` if memory
    /// runs out.
    pub fn decode_v1<T: ByteOrder>(data: &[u8]) -> Result<Self, io::Error> {
        let file = match convert::inner_endian_of::<T>() {
            inner::Endianness::LittleEndian => {
                inner::SimpleperfFileRecord::decode_v1::<LittleEndian>(inner::Global, data)
            }
            inner::Endianness::BigEndian => {
                inner::SimpleperfFileRecord::decode_v1::<BigEndian>(inner::Global, data)
            }
        };
        file.map(Self::from)
    }
}
