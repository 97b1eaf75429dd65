//! Files.

use super::alloc::Global;
use super::path::{AsPath, PathBuf};
use super::rt::{Files, HostRuntime};
use super::vec::Vec;
use ::std::fs;
use ::std::io::{self, Read, Seek, SeekFrom, Write};

pub use ::std::fs::{FileType, Metadata};

/// An open file.
#[derive(Debug)]
pub struct File(fs::File);

impl File {
    /// Opens the file at a path.
    pub fn open<P: AsPath>(_: &HostRuntime, path: P) -> io::Result<File> {
        fs::File::open(path.as_path_str()).map(File)
    }

    /// Makes an empty file at a path and opens it for writing.
    pub fn create<P: AsPath>(_: &HostRuntime, path: P) -> io::Result<File> {
        fs::File::create(path.as_path_str()).map(File)
    }

    /// What the system says of the file.
    pub fn metadata(&self) -> io::Result<Metadata> {
        self.0.metadata()
    }
}

impl Read for File {
    fn read(&mut self, buf: &mut [u8]) -> io::Result<usize> {
        self.0.read(buf)
    }
}

impl Write for File {
    fn write(&mut self, buf: &[u8]) -> io::Result<usize> {
        self.0.write(buf)
    }

    fn flush(&mut self) -> io::Result<()> {
        self.0.flush()
    }
}

impl Seek for File {
    fn seek(&mut self, to: SeekFrom) -> io::Result<u64> {
        self.0.seek(to)
    }
}

/// Opens the file at a path.
pub fn open<R: Files>(rt: &R, path: &str) -> io::Result<R::File> {
    rt.open_file(path)
}

/// What the system says of the file at a path.
pub fn metadata<P: AsPath>(_: &HostRuntime, path: P) -> io::Result<Metadata> {
    fs::metadata(path.as_path_str())
}

/// The bytes of the file at a path.
pub fn read<P: AsPath>(rt: &HostRuntime, path: P) -> io::Result<Vec<u8>> {
    let mut bytes = Vec::new(Global);
    super::io::append_all(&mut File::open(rt, path)?, &mut bytes)?;
    Ok(bytes)
}

/// Moves a file to another path of the same file system.
pub fn rename<P: AsPath, Q: AsPath>(_: &HostRuntime, from: P, to: Q) -> io::Result<()> {
    fs::rename(from.as_path_str(), to.as_path_str())
}

/// Removes a file.
pub fn remove_file<P: AsPath>(_: &HostRuntime, path: P) -> io::Result<()> {
    fs::remove_file(path.as_path_str())
}

/// The path without symbolic links. A path that isn't UTF-8 is an error.
pub fn canonicalize<P: AsPath>(_: &HostRuntime, path: P) -> io::Result<PathBuf> {
    let path = fs::canonicalize(path.as_path_str())?;
    match path.into_os_string().into_string() {
        Ok(text) => Ok(PathBuf::from_std(text)),
        Err(_) => Err(io::Error::from(io::ErrorKind::InvalidData)),
    }
}
