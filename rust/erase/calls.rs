//! Macros and methods that take an allocator.

use super::Failure;
use super::forms::Eraser;
use super::paths::erase_path;

/// The macros of the shim that take a runtime or an allocator before a semicolon.
const MACROS: [&str; 6] = ["print", "println", "eprint", "eprintln", "format", "vec"];

/// Changes the name of a macro that Rust has otherwise.
pub fn erase_macro(eraser: &mut Eraser<'_>, index: usize) -> Result<(), Failure> {
    if eraser.source.follows_path(index) {
        return Ok(());
    }
    let name = eraser.source.word(index);
    if MACROS.contains(&name) {
        let path = format!("crate::shim::macros::{name}");
        eraser.source.replace(index, index, &path);
    } else if let Some(rest) = name.strip_prefix("prove") {
        if !["", "_eq", "_ne"].contains(&rest) {
            return Err(eraser.source.failure(index, "an unknown form of `prove!`"));
        }
        let prefix = if is_in_constant(eraser, index) { "assert" } else { "debug_assert" };
        eraser.source.replace(index, index, &format!("{prefix}{rest}"));
    } else {
        erase_path(eraser, index)?;
    }
    Ok(())
}

// Whether the statement or item around a token is a constant.
fn is_in_constant(eraser: &Eraser<'_>, index: usize) -> bool {
    let source = &eraser.source;
    let mut at = index;
    while at > 0 && ![";", "{", "}"].contains(&source.word(at - 1)) {
        at -= 1;
        if source.is_word(at, "const") {
            return true;
        }
    }
    false
}

/// Changes the name of a method that takes an allocator, or that may fail, where Rust's takes none and can't.
pub fn erase_method(eraser: &mut Eraser<'_>, index: usize) -> Result<(), Failure> {
    let name = eraser.source.word(index);
    let Some(open) = arguments(eraser, index)? else {
        return Ok(());
    };
    let commas = commas_before_closure(eraser, open);
    let is_empty = eraser.source.partner(open) == open + 1;
    let takes_allocator = match name {
        "to_vec" | "collect" | "concat" | "to_string" | "to_owned" | "lines" | "sort" => !is_empty,
        "sort_by" | "sort_by_key" | "sort_by_cached_key" | "repeat" | "join" => commas >= 1,
        "replace" => commas >= 2,
        "read_to_end" | "read_to_string" => !is_empty,
        _ => false,
    };
    if takes_allocator {
        eraser.source.insert_after(index, "_in");
    } else if name == "clone" && is_empty {
        eraser.source.replace(index, index, "try_clone");
    }
    Ok(())
}

// The index of the `(` of a method's call, after a turbofish if there is one.
fn arguments(eraser: &Eraser<'_>, index: usize) -> Result<Option<usize>, Failure> {
    let source = &eraser.source;
    let mut open = index + 1;
    if source.is_marks(open, "::") && source.is_marks(open + 2, "<") {
        open = source.after_angles(open + 2)?;
    }
    Ok(source.is_marks(open, "(").then_some(open))
}

// The number of commas between arguments, up to the first closure.
fn commas_before_closure(eraser: &Eraser<'_>, open: usize) -> usize {
    let source = &eraser.source;
    let end = source.partner(open);
    let mut commas = 0;
    let mut at = open + 1;
    while at < end && source.word(at) != "|" {
        match source.word(at) {
            "(" | "[" | "{" => at = source.partner(at),
            // A comma before the closing bracket separates nothing.
            "," if at + 1 < end => commas += 1,
            _ => {}
        }
        at += 1;
    }
    commas
}
