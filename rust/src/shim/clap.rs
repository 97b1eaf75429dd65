//! Command lines, by the crate clap.

use super::std::alloc::{AllocError, AllocFailed, Global};
use super::std::rt::{HostRuntime, eprint, print};
use super::std::string::String;
use super::std::vec::Vec;
use ::std::any::Any;
use ::std::fmt;
use ::std::io;

pub use ::clap::ArgAction;

/// Why there are no matches.
pub mod error {
    /// What is wrong with the arguments, or what they ask for.
    #[derive(Clone, Copy, Debug, PartialEq, Eq)]
    pub enum ErrorKind {
        /// An argument is invalid.
        Invalid,
        /// The help is asked for.
        DisplayHelp,
        /// The version is asked for.
        DisplayVersion,
        /// Memory ran out.
        OutOfMemory,
    }
}

use error::ErrorKind;

/// Why there are no matches. It prints the text for the user.
#[derive(Debug)]
pub struct Error {
    kind: ErrorKind,
    message: Option<::clap::Error>,
}

impl Error {
    /// What is wrong.
    pub fn kind(&self) -> ErrorKind {
        self.kind
    }

    /// Prints the help and the version on standard output, and all else on standard error.
    pub fn print(&self, rt: &HostRuntime) -> io::Result<()> {
        match self.kind {
            ErrorKind::DisplayHelp | ErrorKind::DisplayVersion => print(rt, format_args!("{self}")),
            _ => eprint(rt, format_args!("{self}")),
        }
    }
}

impl fmt::Display for Error {
    fn fmt(&self, f: &mut fmt::Formatter<'_>) -> fmt::Result {
        match &self.message {
            Some(message) => message.fmt(f),
            None => f.write_str("error: out of memory\n"),
        }
    }
}

impl From<::clap::Error> for Error {
    fn from(error: ::clap::Error) -> Error {
        let kind = match error.kind() {
            ::clap::error::ErrorKind::DisplayHelp => ErrorKind::DisplayHelp,
            ::clap::error::ErrorKind::DisplayVersion => ErrorKind::DisplayVersion,
            _ => ErrorKind::Invalid,
        };
        Error {
            kind,
            message: Some(error),
        }
    }
}

impl From<AllocError> for Error {
    fn from(_: AllocError) -> Error {
        Error {
            kind: ErrorKind::OutOfMemory,
            message: None,
        }
    }
}

impl<T> From<AllocFailed<T>> for Error {
    fn from(_: AllocFailed<T>) -> Error {
        Error::from(AllocError)
    }
}

/// What values an argument takes.
pub enum ValueParser<'a> {
    /// One of these.
    Possible(Vec<&'a str>),
    /// A number.
    Number(::clap::builder::ValueParser),
}

impl<'a, const N: usize> From<[&'a str; N]> for ValueParser<'a> {
    fn from(values: [&'a str; N]) -> ValueParser<'a> {
        ValueParser::Possible(Vec::from_std(values.to_vec()))
    }
}

impl<'a> From<&[&'a str]> for ValueParser<'a> {
    fn from(values: &[&'a str]) -> ValueParser<'a> {
        ValueParser::Possible(Vec::from_std(values.to_vec()))
    }
}

/// The values of a type.
#[doc(hidden)]
#[macro_export]
macro_rules! __shim_value_parser {
    ($name:ty) => {
        $crate::shim::clap::ValueParser::Number(::clap::value_parser!($name).into())
    };
}

pub use __shim_value_parser as value_parser;

/// An argument of a command.
pub struct Arg<'a> {
    arg: ::clap::Arg,
    marker: ::std::marker::PhantomData<&'a str>,
}

impl<'a> Arg<'a> {
    fn with(self, change: impl FnOnce(::clap::Arg) -> ::clap::Arg) -> Arg<'a> {
        Arg {
            arg: change(self.arg),
            ..self
        }
    }

    /// An argument with an id.
    pub fn new(_: Global, id: &'a str) -> Arg<'a> {
        Arg {
            arg: ::clap::Arg::new(id.to_string()),
            marker: ::std::marker::PhantomData,
        }
    }

    /// Its name of one letter.
    pub fn short(self, name: char) -> Arg<'a> {
        self.with(|arg| arg.short(name))
    }

    /// Its name of more letters.
    pub fn long(self, name: &'a str) -> Arg<'a> {
        self.with(|arg| arg.long(name.to_string()))
    }

    /// What it is, in the help.
    pub fn help(self, text: &'a str) -> Arg<'a> {
        self.with(|arg| arg.help(text.to_string()))
    }

    /// What its use does.
    pub fn action(self, action: ArgAction) -> Arg<'a> {
        self.with(|arg| arg.action(action))
    }

    /// The name of its value in the help.
    pub fn value_name(self, name: &'a str) -> Arg<'a> {
        self.with(|arg| arg.value_name(name.to_string()))
    }

    /// The values that it takes.
    pub fn value_parser<P: Into<ValueParser<'a>>>(self, parser: P) -> Arg<'a> {
        match parser.into() {
            ValueParser::Possible(values) => {
                let values = values.into_std().into_iter().map(str::to_string);
                let parser = ::clap::builder::PossibleValuesParser::new(values);
                self.with(|arg| arg.value_parser(parser))
            }
            ValueParser::Number(parser) => self.with(|arg| arg.value_parser(parser)),
        }
    }

    /// How many values one use takes.
    pub fn num_args(self, range: ::std::ops::RangeInclusive<usize>) -> Arg<'a> {
        self.with(|arg| arg.num_args(range))
    }

    /// The value of a use without one.
    pub fn default_missing_value(self, value: &'a str) -> Arg<'a> {
        self.with(|arg| arg.default_missing_value(value.to_string()))
    }

    /// The arguments that can't be used with it.
    pub fn conflicts_with_all(self, ids: &[&'a str]) -> Result<Arg<'a>, AllocError> {
        let ids: ::std::vec::Vec<_> = ids.iter().map(|id| ::clap::Id::from(id.to_string())).collect();
        Ok(self.with(|arg| arg.conflicts_with_all(ids)))
    }

    /// An argument that can't be used with it.
    pub fn conflicts_with(self, id: &'a str) -> Result<Arg<'a>, AllocError> {
        self.conflicts_with_all(&[id])
    }

    /// Whether it has to be used.
    pub fn required(self, is_required: bool) -> Arg<'a> {
        self.with(|arg| arg.required(is_required))
    }
}

/// A program's command line.
pub struct Command<'a> {
    command: ::clap::Command,
    marker: ::std::marker::PhantomData<&'a str>,
}

impl<'a> Command<'a> {
    fn with(self, change: impl FnOnce(::clap::Command) -> ::clap::Command) -> Command<'a> {
        Command {
            command: change(self.command),
            ..self
        }
    }

    /// The command line of a program.
    pub fn new(_: Global, name: &'a str) -> Command<'a> {
        Command {
            command: ::clap::Command::new(name.to_string()),
            marker: ::std::marker::PhantomData,
        }
    }

    /// What the program does.
    pub fn about(self, text: &'a str) -> Command<'a> {
        self.with(|command| command.about(text.to_string()))
    }

    /// The version of the program.
    pub fn version(self, text: &'a str) -> Command<'a> {
        self.with(|command| command.version(text.to_string()))
    }

    /// The end of the help.
    pub fn after_help(self, text: &'a str) -> Command<'a> {
        self.with(|command| command.after_help(text.to_string()))
    }

    /// Adds an argument.
    pub fn arg(self, arg: Arg<'a>) -> Result<Command<'a>, AllocError> {
        Ok(self.with(|command| command.arg(arg.arg)))
    }

    /// Parses arguments, of which the first is the program's name.
    pub fn try_get_matches_from(self, words: &'a [String]) -> Result<ArgMatches<'a>, Error> {
        let matches = self.command.try_get_matches_from(words.iter().map(|word| word.as_str()))?;
        Ok(ArgMatches { matches, words })
    }
}

/// The arguments that were used, and their values.
pub struct ArgMatches<'a> {
    matches: ::clap::ArgMatches,
    words: &'a [String],
}

impl<'a> ArgMatches<'a> {
    /// The value of an argument, as a part of the words that were parsed.
    pub fn get_str(&self, id: &str) -> Option<&'a str> {
        let value: &::std::string::String = self.matches.try_get_one(id).ok()??;
        // Each value is a word or the end of one.
        let word = self.words.iter().find(|word| word.ends_with(value.as_str()))?;
        word.get(word.len() - value.len()..)
    }

    /// The value of an argument.
    pub fn get_one<T: Any + Clone + Send + Sync>(&self, id: &str) -> Option<T> {
        self.matches.try_get_one(id).ok()?.cloned()
    }

    /// Whether a flag was used.
    pub fn get_flag(&self, id: &str) -> bool {
        self.matches.get_flag(id)
    }
}
