//! Attributes.

use super::Failure;
use super::derives::erase_derive;
use super::exports::erase_export;
use super::forms::Eraser;

/// Attributes that Rust has too, or that the derives of a crate read.
const KEPT: [&str; 11] = [
    "allow", "cfg", "cold", "doc", "error", "from", "inline", "must_use", "non_exhaustive", "repr", "test",
];

/// Removes an attribute that only the prover reads, changes a derive, and refuses what isn't known.
pub fn erase_attribute(eraser: &mut Eraser<'_>, index: usize) -> Result<(), Failure> {
    let source = &eraser.source;
    let open = if source.is_marks(index + 1, "!") { index + 2 } else { index + 1 };
    if !source.is_marks(open, "[") {
        return Ok(());
    }
    let close = source.partner(open);
    match source.word(open + 1) {
        "tactic" | "cycle" => eraser.remove(index, close),
        // The derive of `Serialize` has read it.
        "serde" => eraser.remove(index, close),
        "derive" => erase_derive(eraser, index)?,
        "unsafe" if source.is_word(open + 3, "no_mangle") => erase_export(eraser, close)?,
        name if KEPT.contains(&name) => {}
        _ => return Err(source.failure(index, "an attribute that isn't known")),
    }
    Ok(())
}
