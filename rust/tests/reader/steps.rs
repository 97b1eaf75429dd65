//! Lists of calls, and results that several calls print.

use crate::language::{Call, Output, Tested, number, split_argument, split_count};
use std::hash::{DefaultHasher, Hash, Hasher};

/// A call in a list: `NAME` or `NAME(ARGUMENT)`, or `N*` and one of these for a call that is made N times.
#[derive(Clone, Copy, Debug)]
pub struct Step<'a> {
    pub count: usize,
    pub name: &'a str,
    pub argument: &'a str,
}

impl<'a> Step<'a> {
    pub fn parse(word: &'a str) -> Tested<Step<'a>> {
        let (count, call) = split_count(word)?;
        let (name, argument) = split_argument(call);
        Ok(Step {
            count,
            name,
            argument,
        })
    }

    /// The argument as a number.
    pub fn number(&self) -> Tested<usize> {
        Ok(number(self.argument)? as usize)
    }

    /// The error for a call that isn't one of the list's.
    pub fn unknown<T>(&self) -> Tested<T> {
        Err(format!("an unknown call in a list: {}", self.name).into())
    }
}

/// The calls of the option `calls`.
pub fn steps<'a>(call: &Call<'a>) -> Tested<Vec<Step<'a>>> {
    call.case
        .option("calls")
        .unwrap_or("next")
        .split(',')
        .map(Step::parse)
        .collect()
}

/// Whether two values are equal, and whether their hashes are.
pub fn equalities<T: Eq + Hash>(first: &T, other: &T) -> (bool, bool) {
    (first == other, hash(first) == hash(other))
}

fn hash<T: Hash>(value: &T) -> u64 {
    let mut state = DefaultHasher::new();
    value.hash(&mut state);
    state.finish()
}

/// Appends `N left` as a line if this number of unread bytes isn't 0.
pub fn push_left(out: &mut Output, count: u64) {
    if count != 0 {
        writeln!(out, "{count} left");
    }
}
