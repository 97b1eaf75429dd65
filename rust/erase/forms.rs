//! Goes over the tokens of a text and erases each form.

use super::attributes::erase_attribute;
use super::calls::{erase_macro, erase_method};
use super::exports::erase_main;
use super::items::erase_formatter;
use super::lexer::Kind;
use super::paths::{erase_path, erase_use};
use super::text::Source;
use super::{Crate, Failure};

/// What each file and each inline module begins with.
const PRELUDE: &str = "use crate::shim::prelude::*; ";

/// A text that is being erased.
pub struct Eraser<'a> {
    pub source: Source<'a>,
    pub member: &'a Crate,
    pub is_root: bool,
    /// The tokens that a form has dealt with.
    done: Vec<bool>,
}

impl Eraser<'_> {
    /// Removes tokens, and leaves no other form to look at them.
    pub fn remove(&mut self, first: usize, last: usize) {
        self.source.remove(first, last);
        self.finish(first, last);
    }

    /// Leaves no other form to look at these tokens.
    pub fn finish(&mut self, first: usize, last: usize) {
        self.done[first..=last].fill(true);
    }
}

/// Erases a file of a crate. `is_root` says whether it is the crate's `lib.rt` or `main.rt`.
pub fn erase(text: &str, member: &Crate, is_root: bool) -> Result<String, Failure> {
    let source = Source::new(text)?;
    let done = vec![false; source.len()];
    let mut eraser = Eraser {
        source,
        member,
        is_root,
        done,
    };
    add_prelude(&mut eraser);
    erase_fences(&mut eraser);
    erase_ghosts(&mut eraser)?;
    for index in 0..eraser.source.len() {
        if !eraser.done[index] {
            erase_token(&mut eraser, index)?;
        }
    }
    eraser.source.edited()
}

fn erase_token(eraser: &mut Eraser<'_>, index: usize) -> Result<(), Failure> {
    match eraser.source.kind(index) {
        Some(Kind::Mark) if eraser.source.word(index) == "#" => erase_attribute(eraser, index),
        Some(Kind::Word) => erase_word(eraser, index),
        _ => Ok(()),
    }
}

fn erase_word(eraser: &mut Eraser<'_>, index: usize) -> Result<(), Failure> {
    let source = &eraser.source;
    let is_method = index > 0 && source.is_marks(index - 1, ".") && !source.is_marks(index.saturating_sub(2), "..");
    if is_method {
        return erase_method(eraser, index);
    }
    if source.is_marks(index + 1, "!") && !source.is_marks(index + 1, "!=") {
        return erase_macro(eraser, index);
    }
    match source.word(index) {
        "use" => erase_use(eraser, index),
        "mod" => {
            add_module_prelude(eraser, index);
            Ok(())
        }
        "fn" => {
            erase_formatter(eraser, index)?;
            erase_main(eraser, index)
        }
        "Clone" if !source.follows_path(index) => {
            eraser.source.replace(index, index, "TryClone");
            Ok(())
        }
        "clone" if is_clone_function(eraser, index) => {
            eraser.source.replace(index, index, "try_clone");
            Ok(())
        }
        _ => erase_path(eraser, index),
    }
}

// Whether `clone` is the name of a method that is declared, or named by its path.
fn is_clone_function(eraser: &Eraser<'_>, index: usize) -> bool {
    let source = &eraser.source;
    let is_declared = index > 0 && source.is_word(index - 1, "fn");
    is_declared || (source.follows_path(index) && !source.is_marks(index + 1, "::"))
}

fn add_prelude(eraser: &mut Eraser<'_>) {
    let mut index = 0;
    loop {
        if eraser.source.kind(index) == Some(Kind::InnerDoc) {
            index += 1;
        } else if eraser.source.is_marks(index, "#!") && eraser.source.is_marks(index + 2, "[") {
            index = eraser.source.partner(index + 2) + 1;
        } else {
            break;
        }
    }
    add_prelude_before(eraser, index);
}

fn add_module_prelude(eraser: &mut Eraser<'_>, index: usize) {
    if eraser.source.kind(index + 1) == Some(Kind::Word) && eraser.source.is_marks(index + 2, "{") {
        add_prelude_before(eraser, index + 3);
    }
}

fn add_prelude_before(eraser: &mut Eraser<'_>, index: usize) {
    let start = eraser.source.tokens.get(index).map(|token| token.start);
    let rest = start.map_or("", |start| &eraser.source.text[start..]);
    if !rest.starts_with(PRELUDE) {
        eraser.source.insert_before(index, PRELUDE);
    }
}

// Marks the examples of doc comments as text that isn't compiled: they are written in Rattle.
fn erase_fences(eraser: &mut Eraser<'_>) {
    let mut is_open = false;
    for index in 0..eraser.source.len() {
        let kind = eraser.source.kind(index);
        if kind != Some(Kind::OuterDoc) && kind != Some(Kind::InnerDoc) {
            is_open = false;
            continue;
        }
        let line = eraser.source.word(index);
        let content = line.trim_start_matches(['/', '!']).trim();
        let Some(language) = content.strip_prefix("```") else {
            continue;
        };
        is_open = !is_open;
        if is_open && (language.is_empty() || language == "rust") {
            let replacement = line.replace(content, "```ignore");
            eraser.source.replace(index, index, &replacement);
        }
    }
}

// Removes clauses and ghost items, with the doc comments and the visibility before these.
fn erase_ghosts(eraser: &mut Eraser<'_>) -> Result<(), Failure> {
    for index in 0..eraser.source.len() {
        match eraser.source.kind(index) {
            Some(Kind::Clause) => eraser.remove(index, index),
            Some(Kind::Ghost) => {
                let first = ghost_start(eraser, index)?;
                eraser.remove(first, index);
            }
            _ => {}
        }
    }
    Ok(())
}

fn ghost_start(eraser: &Eraser<'_>, index: usize) -> Result<usize, Failure> {
    let source = &eraser.source;
    let mut first = index;
    if first > 0 && source.is_word(first - 1, "pub") {
        first -= 1;
    } else if first > 0 && source.is_marks(first - 1, ")") {
        let open = source.partner(first - 1);
        if open > 0 && source.is_word(open - 1, "pub") {
            first = open - 1;
        }
    }
    while first > 0 && source.kind(first - 1) == Some(Kind::OuterDoc) {
        first -= 1;
    }
    if first > 0 && source.is_marks(first - 1, "]") {
        let open = source.partner(first - 1);
        if open > 0 && source.is_marks(open - 1, "#") {
            return Err(source.failure(open - 1, "an attribute of a ghost item"));
        }
    }
    Ok(first)
}
