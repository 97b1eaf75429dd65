//! The runtime that `main` is given.

use super::alloc::Global;
use super::fs;
use super::io::Input;
use ::std::fmt;
use ::std::fs::File;
use ::std::io::{self, IsTerminal, Read, Write};
use ::std::mem::ManuallyDrop;
use ::std::sync::atomic::{AtomicU8, Ordering};

/// The system's number of the error of a descriptor that isn't open, EBADF.
const BAD_DESCRIPTOR: i32 = 9;

/// The system: it has no state of its own.
#[derive(Clone, Copy, Debug)]
pub struct HostRuntime;

/// A runtime that has an allocator.
pub trait Alloc {
    type A;

    /// The allocator.
    fn alloc(&self) -> Self::A;
}

/// A runtime with the allocator of the process.
pub trait AllocGlobal: Alloc<A = Global> {}

/// A runtime that opens files.
pub trait Files {
    type File: Read + io::Seek;

    /// Opens the file at a path for reading.
    fn open_file(&self, path: &str) -> io::Result<Self::File>;
}

/// A runtime that has arguments and variables.
pub trait Env {}

impl Alloc for HostRuntime {
    type A = Global;

    fn alloc(&self) -> Global {
        Global
    }
}

impl AllocGlobal for HostRuntime {}

impl Env for HostRuntime {}

impl Files for HostRuntime {
    type File = fs::File;

    fn open_file(&self, path: &str) -> io::Result<fs::File> {
        fs::File::open(self, path)
    }
}

impl Input for HostRuntime {
    type Reader = io::BufReader<Stdin>;

    fn reader(&self) -> io::BufReader<Stdin> {
        io::BufReader::with_capacity(0, Stdin)
    }
}

impl HostRuntime {
    /// The allocator.
    pub fn alloc(&self) -> Global {
        Global
    }

    /// Standard input.
    pub fn stdin(&self) -> Stdin {
        Stdin
    }

    /// Standard output.
    pub fn stdout(&self) -> Stdout {
        Stdout
    }

    /// Standard error.
    pub fn stderr(&self) -> Stderr {
        Stderr
    }
}

/// Bit n: whether the descriptor n was closed when the process began.
static CLOSED: AtomicU8 = AtomicU8::new(0);

#[cfg(unix)]
mod c {
    pub const F_GETFD: i32 = 1;

    unsafe extern "C" {
        pub fn fcntl(descriptor: i32, command: i32, ...) -> i32;
    }
}

/// Notes which standard streams are closed, before Rust's start opens /dev/null in their place.
#[cfg(unix)]
pub extern "C" fn note_streams() {
    let mut closed = 0;
    for descriptor in 0..3 {
        // SAFETY: the call reads no memory.
        if unsafe { c::fcntl(descriptor, c::F_GETFD) } < 0 {
            closed |= 1 << descriptor;
        }
    }
    CLOSED.store(closed, Ordering::Relaxed);
}

// A standard stream as a file that isn't closed when it is dropped.
#[cfg(unix)]
fn stream(number: i32) -> io::Result<ManuallyDrop<File>> {
    use ::std::os::fd::FromRawFd;
    if CLOSED.load(Ordering::Relaxed) >> number & 1 == 1 {
        return Err(io::Error::from_raw_os_error(BAD_DESCRIPTOR));
    }
    // SAFETY: the file is never closed here, and nothing else closes the standard streams.
    Ok(ManuallyDrop::new(unsafe { File::from_raw_fd(number) }))
}

/// Standard input, without a buffer.
#[derive(Clone, Copy, Debug)]
pub struct Stdin;

/// Standard output, without a buffer. Rust's own writes line by line.
#[derive(Clone, Copy, Debug)]
pub struct Stdout;

/// Standard error, without a buffer.
#[derive(Clone, Copy, Debug)]
pub struct Stderr;

impl Read for Stdin {
    fn read(&mut self, buf: &mut [u8]) -> io::Result<usize> {
        stream(0)?.read(buf)
    }
}

impl Write for Stdout {
    fn write(&mut self, buf: &[u8]) -> io::Result<usize> {
        stream(1)?.write(buf)
    }

    fn flush(&mut self) -> io::Result<()> {
        Ok(())
    }
}

impl Write for Stderr {
    fn write(&mut self, buf: &[u8]) -> io::Result<usize> {
        stream(2)?.write(buf)
    }

    fn flush(&mut self) -> io::Result<()> {
        Ok(())
    }
}

impl Stdout {
    /// Whether it is a terminal.
    pub fn is_terminal(&self) -> bool {
        io::stdout().is_terminal()
    }
}

impl Stderr {
    /// Whether it is a terminal.
    pub fn is_terminal(&self) -> bool {
        io::stderr().is_terminal()
    }
}

/// Prints a format on standard output, in one piece.
pub fn print(_: &HostRuntime, format: fmt::Arguments<'_>) -> io::Result<()> {
    print_to(Stdout, format)
}

/// Prints a format on standard error, in one piece.
pub fn eprint(_: &HostRuntime, format: fmt::Arguments<'_>) -> io::Result<()> {
    print_to(Stderr, format)
}

fn print_to<W: Write>(mut to: W, format: fmt::Arguments<'_>) -> io::Result<()> {
    let text = super::string::format(Global, format)?;
    to.write_all(text.as_bytes())
}
