//! The steps of a source, as text.

use super::Tested;
use super::case::{number, split_argument, split_count};
use dewikura::perfdata_base::source::Step;
use std::io::ErrorKind;

/// The kind of an I/O error of this name.
pub fn error_kind(name: &str) -> Tested<ErrorKind> {
    const KINDS: [ErrorKind; 9] = [
        ErrorKind::Interrupted,
        ErrorKind::InvalidData,
        ErrorKind::Other,
        ErrorKind::OutOfMemory,
        ErrorKind::PermissionDenied,
        ErrorKind::StorageFull,
        ErrorKind::TimedOut,
        ErrorKind::UnexpectedEof,
        ErrorKind::WouldBlock,
    ];
    let mut kinds = KINDS.into_iter();
    let kind = kinds.find(|kind| format!("{kind:?}") == name);
    kind.ok_or_else(|| format!("an unknown kind of I/O errors: {name}").into())
}

/// The step of a word: a number of bytes, `pause` or `stop`, `fail(KIND)` or `grow(N)`.
fn step(word: &str) -> Tested<Step> {
    Ok(match split_argument(word) {
        ("fail", kind) => Step::Fault(error_kind(kind)?),
        ("grow", count) => Step::Grow(number(count)? as usize),
        ("pause" | "stop", _) => Step::Pause,
        _ => Step::Give(number(word)? as usize),
    })
}

/// Parses steps with a comma or a plus between them. `N*STEP` is a step N times, and `N*STEP/STEP` is a group of steps N times.
/// `rest` at the end is no step: a source without further steps returns all of its bytes.
pub fn parse_steps(text: &str) -> Tested<Vec<Step>> {
    let mut steps = Vec::new();
    for word in text
        .split([',', '+'])
        .filter(|word| !matches!(*word, "" | "rest"))
    {
        let (count, group) = split_count(word)?;
        let group = group.split('/').map(step).collect::<Tested<Vec<_>>>()?;
        steps.extend(group.repeat(count));
    }
    Ok(steps)
}
