//! The text that a case prints.

use dewikura::perfdata_base::raw::RawData;
use dewikura::perfdata_sections::error::Error;
use std::fmt::{self, Debug, Write};
use std::io;

/// The text that a case prints.
#[derive(Clone, Debug, Default, PartialEq)]
pub struct Output {
    pub text: String,
}

impl Output {
    /// What `write!` and `writeln!` call.
    pub fn write_fmt(&mut self, text: fmt::Arguments<'_>) {
        self.text
            .write_fmt(text)
            .expect("a value that can be printed");
    }

    /// Appends a value in the form of `{:?}` as a line.
    pub fn push_line<T: Debug + ?Sized>(&mut self, value: &T) {
        writeln!(self, "{value:?}");
    }

    /// Appends a value in the form of `{:?}`, or `Err(KIND)` for an I/O error of this kind, as a line.
    pub fn push_io_result<T: Debug>(&mut self, value: &io::Result<T>) {
        match value {
            Ok(value) => self.push_line(value),
            Err(error) => writeln!(self, "Err({:?})", error.kind()),
        }
    }

    /// Appends raw data in any slices as a line, `None` if there is none, or `Err(KIND)` for an I/O error.
    pub fn push_raw(&mut self, read: &io::Result<Option<RawData<'_>>>) {
        match read {
            Ok(Some(RawData::Single(bytes))) => self.push_line(bytes),
            Ok(Some(RawData::Split(first, second))) => self.push_line(&[*first, *second].concat()),
            none => self.push_io_result(none),
        }
    }

    /// Appends the name of an error, in which the kind stands for an I/O error. The line isn't ended.
    pub fn push_error(&mut self, error: &Error) {
        match error {
            Error::IoError(error) => write!(self, "IoError({:?})", error.kind()),
            Error::ParsingSimpleperfFileV1Section(error) => {
                write!(self, "ParsingSimpleperfFileV1Section({:?})", error.kind());
            }
            error => write!(self, "{error:?}"),
        }
    }

    /// Appends a value in the form of `{:?}`, or the name of an error, as a line.
    pub fn push_result<T: Debug>(&mut self, value: &Result<T, Error>) {
        match value {
            Ok(value) => self.push_line(value),
            Err(error) => {
                self.push_error(error);
                writeln!(self);
            }
        }
    }

    /// Appends a result after its name if it isn't the first result.
    pub fn append_other(&mut self, first: &Output, name: &str, other: &Output) {
        if other != first {
            write!(self, "{name}:\n{}", other.text);
        }
    }
}
