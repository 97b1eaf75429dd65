//! The arguments of the program.

use super::alloc::{AllocError, Global};
use super::rt::Env;
use super::string::String;
use super::vec::Vec;
use ::std::env;
use ::std::io;

/// The arguments, of which the first is the program's name.
pub struct Args(::std::vec::IntoIter<String>);

/// The arguments. Fails if one isn't UTF-8.
pub fn args<R: Env>(_: &R) -> io::Result<Args> {
    let mut texts = Vec::new(Global);
    for argument in env::args_os() {
        let text = argument.into_string().map_err(|_| io::Error::from(io::ErrorKind::InvalidData))?;
        texts.push(String::from_std(text)).map_err(AllocError::from)?;
    }
    Ok(Args(texts.into_iter()))
}

impl Iterator for Args {
    type Item = String;

    fn next(&mut self) -> Option<String> {
        self.0.next()
    }

    fn size_hint(&self) -> (usize, Option<usize>) {
        self.0.size_hint()
    }
}

/// Why there is no value of a variable.
#[derive(Clone, Debug, PartialEq, Eq)]
pub enum VarError {
    /// There is no such variable.
    NotPresent,
    /// The value isn't UTF-8.
    NotUnicode,
    /// Out of memory.
    OutOfMemory,
}

/// The value of a variable of the environment.
pub fn var<R: Env>(_: &R, name: &str) -> Result<String, VarError> {
    match env::var(name) {
        Ok(value) => Ok(String::from_std(value)),
        Err(env::VarError::NotPresent) => Err(VarError::NotPresent),
        Err(env::VarError::NotUnicode(_)) => Err(VarError::NotUnicode),
    }
}
