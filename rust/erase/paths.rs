//! Paths that begin with a crate's name.

use super::Failure;
use super::forms::Eraser;
use super::lexer::Kind;

/// Changes a path's first name, outside of imports.
pub fn erase_path(eraser: &mut Eraser<'_>, index: usize) -> Result<(), Failure> {
    if eraser.source.follows_path(index) || !eraser.source.is_marks(index + 1, "::") {
        return Ok(());
    }
    change_first(eraser, index);
    Ok(())
}

/// Changes the first names of the paths of an import.
pub fn erase_use(eraser: &mut Eraser<'_>, index: usize) -> Result<(), Failure> {
    let source = &eraser.source;
    let Some(end) = (index..source.len()).find(|at| source.is_marks(*at, ";")) else {
        return Err(source.failure(index, "an import without an end"));
    };
    let mut firsts = vec![index + 1];
    if source.is_marks(index + 1, "{") {
        let close = source.partner(index + 1);
        firsts = source.split(index + 2, close)?.iter().map(|part| part.0).collect();
    }
    for first in firsts {
        change_first(eraser, first);
    }
    eraser.finish(index, end);
    Ok(())
}

fn change_first(eraser: &mut Eraser<'_>, index: usize) {
    if eraser.source.kind(index) != Some(Kind::Word) {
        return;
    }
    let first = eraser.source.word(index);
    if first == "crate" {
        let next = eraser.source.word(index + 3);
        let is_package = next == "shim" || eraser.member.siblings.contains(next);
        if eraser.source.is_marks(index + 1, "::") && !is_package {
            let path = format!("crate::{}", eraser.member.name);
            eraser.source.replace(index, index, &path);
        }
    } else if let Some(path) = eraser.member.path_of(first) {
        eraser.source.replace(index, index, &path);
    }
}
