//! Takes the contracts out of sources of Rattle. What is left is Rust that stands on the module `shim` in place
//! of Rattle's standard library and crates.
//!
//! Each form is found by tokens and brackets alone, and a form that isn't known is an error.

mod attributes;
mod calls;
mod derives;
mod exports;
mod forms;
mod items;
mod lexer;
mod package;
mod paths;
mod text;

pub use forms::erase;
pub use package::{Crate, Package};

use std::fmt;

/// Why a text can't be erased, and the line.
#[derive(Clone, Debug, PartialEq, Eq)]
pub struct Failure {
    pub line: usize,
    pub what: String,
}

impl fmt::Display for Failure {
    fn fmt(&self, f: &mut fmt::Formatter<'_>) -> fmt::Result {
        write!(f, "{}: {}", self.line, self.what)
    }
}

fn failure_at(text: &str, at: usize, what: &str) -> Failure {
    let before = &text.as_bytes()[..at.min(text.len())];
    Failure {
        line: 1 + before.iter().filter(|byte| **byte == b'\n').count(),
        what: what.to_string(),
    }
}
