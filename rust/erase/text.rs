//! A text with its tokens, and the edits that erase what Rust doesn't have.

use super::lexer::{Kind, Token, tokens};
use super::{Failure, failure_at};

/// A text, its tokens, and for each bracket the index of its partner.
pub struct Source<'a> {
    pub text: &'a str,
    pub tokens: Vec<Token>,
    partners: Vec<usize>,
    edits: Vec<Edit>,
}

struct Edit {
    start: usize,
    end: usize,
    replacement: String,
}

impl<'a> Source<'a> {
    pub fn new(text: &'a str) -> Result<Source<'a>, Failure> {
        let tokens = tokens(text)?;
        let partners = partners(text, &tokens)?;
        Ok(Source {
            text,
            tokens,
            partners,
            edits: Vec::new(),
        })
    }

    /// The number of tokens.
    pub fn len(&self) -> usize {
        self.tokens.len()
    }

    /// The text of a token; empty after the last one.
    pub fn word(&self, index: usize) -> &'a str {
        match self.tokens.get(index) {
            Some(token) => &self.text[token.start..token.end],
            None => "",
        }
    }

    pub fn kind(&self, index: usize) -> Option<Kind> {
        self.tokens.get(index).map(|token| token.kind)
    }

    /// Whether a token is a word, and this one.
    pub fn is_word(&self, index: usize, word: &str) -> bool {
        self.kind(index) == Some(Kind::Word) && self.word(index) == word
    }

    /// Whether the tokens from `index` on are these marks, without anything between them.
    pub fn is_marks(&self, index: usize, marks: &str) -> bool {
        let Some(first) = self.tokens.get(index) else {
            return false;
        };
        first.kind == Kind::Mark && self.text[first.start..].starts_with(marks)
    }

    /// Whether the token before `index` is the end of `::`.
    pub fn follows_path(&self, index: usize) -> bool {
        index >= 2 && self.is_marks(index - 2, "::")
    }

    /// The index of the bracket that belongs to the one at `index`.
    pub fn partner(&self, index: usize) -> usize {
        self.partners[index]
    }

    /// The text from the start of one token to the end of another.
    pub fn between(&self, first: usize, last: usize) -> &'a str {
        &self.text[self.tokens[first].start..self.tokens[last].end]
    }

    /// The index after the `>` that closes the `<` at `index`.
    pub fn after_angles(&self, index: usize) -> Result<usize, Failure> {
        let mut depth = 0;
        let mut at = index;
        while at < self.len() {
            match self.word(at) {
                "<" => depth += 1,
                ">" if at > 0 && (self.is_marks(at - 1, "->") || self.is_marks(at - 1, "=>")) => {}
                ">" => depth -= 1,
                "(" | "[" | "{" => at = self.partner(at),
                _ => {}
            }
            at += 1;
            if depth == 0 {
                return Ok(at);
            }
        }
        Err(self.failure(index, "generics without an end"))
    }

    /// Splits the tokens of a range at commas outside of brackets and angles.
    pub fn split(&self, start: usize, end: usize) -> Result<Vec<(usize, usize)>, Failure> {
        let mut parts = Vec::new();
        let mut first = start;
        let mut at = start;
        while at < end {
            match self.word(at) {
                "(" | "[" | "{" => at = self.partner(at),
                "<" => at = self.after_angles(at)? - 1,
                "," => {
                    parts.push((first, at));
                    first = at + 1;
                }
                _ => {}
            }
            at += 1;
        }
        if first < end {
            parts.push((first, end));
        }
        Ok(parts)
    }

    pub fn failure(&self, index: usize, what: &str) -> Failure {
        let at = self.tokens.get(index).map_or(self.text.len(), |token| token.start);
        failure_at(self.text, at, what)
    }

    /// Replaces the text from one token to another.
    pub fn replace(&mut self, first: usize, last: usize, replacement: &str) {
        let (start, end) = (self.tokens[first].start, self.tokens[last].end);
        self.edits.push(Edit {
            start,
            end,
            replacement: replacement.to_string(),
        });
    }

    /// Removes the text from one token to another.
    pub fn remove(&mut self, first: usize, last: usize) {
        self.replace(first, last, "");
    }

    /// Inserts text before a token, or at the end of the text.
    pub fn insert_before(&mut self, index: usize, insertion: &str) {
        let at = self.tokens.get(index).map_or(self.text.len(), |token| token.start);
        self.insert(at, insertion);
    }

    /// Inserts text after a token.
    pub fn insert_after(&mut self, index: usize, insertion: &str) {
        self.insert(self.tokens[index].end, insertion);
    }

    fn insert(&mut self, at: usize, insertion: &str) {
        self.edits.push(Edit {
            start: at,
            end: at,
            replacement: insertion.to_string(),
        });
    }

    /// The text with its edits. A removed text leaves its line ends, so each line keeps its number.
    pub fn edited(mut self) -> Result<String, Failure> {
        self.edits.sort_by_key(|edit| (edit.start, edit.end));
        let mut result = String::with_capacity(self.text.len());
        let mut at = 0;
        for edit in &self.edits {
            if edit.start < at {
                return Err(failure_at(self.text, edit.start, "two forms at one place"));
            }
            result.push_str(&self.text[at..edit.start]);
            result.push_str(&edit.replacement);
            let removed = &self.text[edit.start..edit.end];
            let lines = count_lines(removed).saturating_sub(count_lines(&edit.replacement));
            result.extend(std::iter::repeat_n('\n', lines));
            at = edit.end;
        }
        result.push_str(&self.text[at..]);
        Ok(result)
    }
}

fn count_lines(text: &str) -> usize {
    text.bytes().filter(|byte| *byte == b'\n').count()
}

// For each bracket the index of its partner; for each other token its own index.
fn partners(text: &str, tokens: &[Token]) -> Result<Vec<usize>, Failure> {
    let mut partners: Vec<usize> = (0..tokens.len()).collect();
    let mut open: Vec<usize> = Vec::new();
    for (index, token) in tokens.iter().enumerate() {
        if token.kind != Kind::Mark {
            continue;
        }
        match &text[token.start..token.end] {
            "(" | "[" | "{" => open.push(index),
            close @ (")" | "]" | "}") => {
                let unmatched = || failure_at(text, token.start, "a bracket without its partner");
                let opening = open.pop().ok_or_else(unmatched)?;
                let expected = match &text[tokens[opening].start..tokens[opening].end] {
                    "(" => ")",
                    "[" => "]",
                    _ => "}",
                };
                if close != expected {
                    return Err(unmatched());
                }
                partners[index] = opening;
                partners[opening] = index;
            }
            _ => {}
        }
    }
    match open.first() {
        Some(index) => Err(failure_at(text, tokens[*index].start, "a bracket without its partner")),
        None => Ok(partners),
    }
}
