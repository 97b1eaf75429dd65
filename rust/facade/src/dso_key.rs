//! Keys of mapped objects.

use crate::convert;
use crate::inner;
use crate::linux_perf_event_reader::CpuMode;

/// The key that an object's mappings and its build id have in common, also if their paths differ.
///
/// The kernel is `[kernel.kallsyms]_text` in its mapping, and `[kernel.kallsyms]` or `/boot/vmlinux` in its
/// build id.
#[derive(Debug, Clone, PartialEq, Eq, Hash)]
pub enum DsoKey {
    /// The kernel.
    Kernel,
    /// The kernel of a guest.
    GuestKernel,
    /// The vDSO of 32-bit programs.
    Vdso32,
    /// The vDSO of x32 programs.
    VdsoX32,
    /// The vDSO of 64-bit programs.
    Vdso64,
    /// The page of old system calls.
    Vsyscall,
    /// A module of the kernel.
    KernelModule {
        /// The name in brackets, such as `[snd-seq-device]`.
        name: String,
    },
    /// A file that a program maps.
    User {
        /// The name of the file, with U+FFFD for invalid UTF-8.
        file_name: String,
        /// The path of the file.
        full_path: Vec<u8>,
    },
}

impl From<inner::DsoKey> for DsoKey {
    fn from(key: inner::DsoKey) -> Self {
        match key {
            inner::DsoKey::Kernel => Self::Kernel,
            inner::DsoKey::GuestKernel => Self::GuestKernel,
            inner::DsoKey::Vdso32 => Self::Vdso32,
            inner::DsoKey::VdsoX32 => Self::VdsoX32,
            inner::DsoKey::Vdso64 => Self::Vdso64,
            inner::DsoKey::Vsyscall => Self::Vsyscall,
            inner::DsoKey::KernelModule { name } => Self::KernelModule {
                name: inner::std_string(name),
            },
            inner::DsoKey::User {
                file_name,
                full_path,
            } => Self::User {
                file_name: inner::std_string(file_name),
                full_path: inner::std_vec(full_path),
            },
        }
    }
}

impl DsoKey {
    /// Returns the key of the object with this path in this mode of the processor, which is in a record
    /// header's `misc`.
    ///
    /// It is `None` for a path without an object, such as `//anon`, and for a file in a mode that isn't that
    /// of a kernel or a program.
    pub fn detect(path: &[u8], cpu_mode: CpuMode) -> Option<Self> {
        let mode = convert::inner_cpu_mode(cpu_mode);
        inner::or_abort(inner::DsoKey::detect(inner::Global, path, mode)).map(Self::from)
    }

    /// Returns a short name of the object.
    pub fn name(&self) -> &str {
        match self {
            Self::Kernel => "[kernel.kallsyms]",
            Self::GuestKernel => "[guest.kernel.kallsyms]",
            Self::Vdso32 => "[vdso32]",
            Self::VdsoX32 => "[vdsox32]",
            Self::Vdso64 => "[vdso]",
            Self::Vsyscall => "[vsyscall]",
            Self::KernelModule { name } => name,
            Self::User { file_name, .. } => file_name,
        }
    }
}
