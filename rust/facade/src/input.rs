//! A reader whose compressed records are read as the records that they contain (feature `zstd`).

use std::io::{self, Read, Seek, SeekFrom};

/// A reader that can be sought if it was opened as a file.
pub(crate) struct FileOrPipe<R> {
    reader: R,
    seek: Option<fn(&mut R, SeekFrom) -> io::Result<u64>>,
}

impl<R: Read> Read for FileOrPipe<R> {
    fn read(&mut self, place: &mut [u8]) -> io::Result<usize> {
        self.reader.read(place)
    }
}

impl<R: Read> Seek for FileOrPipe<R> {
    fn seek(&mut self, to: SeekFrom) -> io::Result<u64> {
        match self.seek {
            Some(seek) => seek(&mut self.reader, to),
            None => Err(io::ErrorKind::NotSeekable.into()),
        }
    }
}

/// The bytes of a file or a pipe, without compression.
pub(crate) enum Input<R: Read> {
    /// An input without compressed records, or one whose compressed records aren't read.
    Reader(FileOrPipe<R>),
    #[cfg(feature = "zstd")]
    File(Box<compressed::DecompressedFile<FileOrPipe<R>>>),
    #[cfg(feature = "zstd")]
    Pipe(Box<compressed::DecompressedPipe<FileOrPipe<R>>>),
}

impl<R: Read> Read for Input<R> {
    #[inline]
    fn read(&mut self, place: &mut [u8]) -> io::Result<usize> {
        match self {
            Input::Reader(reader) => reader.read(place),
            #[cfg(feature = "zstd")]
            Input::File(file) => file.read(place),
            #[cfg(feature = "zstd")]
            Input::Pipe(pipe) => pipe.read(place),
        }
    }
}

impl<R: Read> Seek for Input<R> {
    fn seek(&mut self, to: SeekFrom) -> io::Result<u64> {
        match self {
            Input::Reader(reader) => reader.seek(to),
            #[cfg(feature = "zstd")]
            Input::File(file) => file.seek(to),
            #[cfg(feature = "zstd")]
            Input::Pipe(_) => Err(io::ErrorKind::NotSeekable.into()),
        }
    }
}

impl<R: Read + Seek> Input<R> {
    /// The bytes of a file from its reader's position on.
    pub(crate) fn of_file(reader: R) -> io::Result<Self> {
        let file = FileOrPipe {
            reader,
            seek: Some(R::seek),
        };
        #[cfg(feature = "zstd")]
        return compressed::open_file(file);
        #[cfg(not(feature = "zstd"))]
        Ok(Input::Reader(file))
    }
}

impl<R: Read> Input<R> {
    /// The bytes of a pipe.
    pub(crate) fn of_pipe(reader: R) -> io::Result<Self> {
        let pipe = FileOrPipe { reader, seek: None };
        #[cfg(feature = "zstd")]
        return compressed::open_pipe(pipe);
        #[cfg(not(feature = "zstd"))]
        Ok(Input::Reader(pipe))
    }
}

#[cfg(feature = "zstd")]
mod compressed {
    use super::{FileOrPipe, Input};
    use crate::inner::{self, is_compressed_file};
    pub(super) use crate::inner::{DecompressedFile, DecompressedPipe};
    use std::io::{self, Read, Seek, SeekFrom};

    // A file without compressed records is read as it is.
    pub(super) fn open_file<R: Read>(mut file: FileOrPipe<R>) -> io::Result<Input<R>> {
        let start = file.stream_position()?;
        let is_compressed = is_compressed_file(inner::Global, &mut file)?;
        if !is_compressed {
            file.seek(SeekFrom::Start(start))?;
            return Ok(Input::Reader(file));
        }
        let mut file = DecompressedFile::new(inner::Global, file)?;
        file.seek(SeekFrom::Start(start))?;
        Ok(Input::File(Box::new(file)))
    }

    pub(super) fn open_pipe<R: Read>(pipe: FileOrPipe<R>) -> io::Result<Input<R>> {
        let pipe = DecompressedPipe::new(inner::Global, pipe)?;
        Ok(Input::Pipe(Box::new(pipe)))
    }
}
