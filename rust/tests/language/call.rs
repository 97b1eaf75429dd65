//! A call of a case: what it is made with.

use super::values::Value;
use super::{Case, Tested};
use crate::library;
use dewikura::perfdata_base::raw::{Endianness, RawData};
use dewikura::perfdata_base::source::{Script, Step};
use std::io::ErrorKind;

/// A call: its case, its bytes, their byte order, and what a source of them does at its reads and seeks.
#[derive(Clone, Copy, Debug)]
pub struct Call<'a> {
    pub case: &'a Case<'a>,
    pub bytes: &'a [u8],
    /// All values of the input, of which the first has the bytes.
    pub values: &'a [Value],
    pub endian: Endianness,
    /// Where the bytes are split into two slices, if they are.
    pub split: Option<usize>,
    /// The number of bytes that a source returns one by one, and what it does at its reads after that.
    pub single_bytes: usize,
    pub steps: &'a [Step],
    /// The number of bytes that a source has at first.
    pub shown: usize,
    /// The number of the seek of a source that fails, from 0, and the kind of its error.
    pub seek_error: Option<(u64, ErrorKind)>,
    /// The number of bytes that a writer takes, if the case varies it.
    pub capacity: Option<usize>,
}

impl<'a> Call<'a> {
    /// The bytes in one slice, or in two.
    pub fn raw(&self) -> RawData<'a> {
        match self.split.and_then(|at| self.bytes.split_at_checked(at)) {
            Some((first, second)) => RawData::Split(first, second),
            None => RawData::Single(self.bytes),
        }
    }

    /// The bytes of the value after this number of commas; empty if there are fewer.
    pub fn argument(&self, index: usize) -> Tested<&'a [u8]> {
        self.values.get(index).map_or(Ok(&[]), Value::bytes)
    }

    /// The bytes of each value.
    pub fn arguments(&self) -> Tested<Vec<&'a [u8]>> {
        self.values.iter().map(Value::bytes).collect()
    }

    /// A source of the bytes.
    pub fn script(&self) -> Script {
        let mut steps = vec![Step::Give(1); self.single_bytes];
        steps.extend_from_slice(self.steps);
        let seek_errors: Vec<_> = self.seek_error.into_iter().collect();
        let bytes = library::vec(self.bytes);
        Script::with_seek_errors(
            bytes,
            self.shown,
            library::vec(&steps),
            library::vec(&seek_errors),
        )
    }

    /// Whether the source returns its bytes without a pause or an error.
    pub fn is_plain(&self) -> bool {
        self.steps.is_empty() && self.seek_error.is_none() && self.shown >= self.bytes.len()
    }
}
