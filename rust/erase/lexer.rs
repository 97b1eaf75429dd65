//! Splits a source of Rattle into tokens. Clauses and ghost items become one token each.

use super::{Failure, failure_at};

/// What a token is.
#[derive(Clone, Copy, Debug, PartialEq, Eq)]
pub enum Kind {
    /// An identifier or a keyword, also `r#name`.
    Word,
    /// A lifetime or a label.
    Lifetime,
    /// A number, a character or a string.
    Literal,
    /// One byte of punctuation.
    Mark,
    /// A doc comment of the item after it.
    OuterDoc,
    /// A doc comment of the item that contains it.
    InnerDoc,
    /// `requires`, `ensures` or `ensures*` with its body.
    Clause,
    /// `ghost` with all that belongs to it: an import, a member or a field.
    Ghost,
}

/// A token, as a range of bytes of the text.
#[derive(Clone, Copy, Debug)]
pub struct Token {
    pub kind: Kind,
    pub start: usize,
    pub end: usize,
}

/// Returns the tokens of a text, without blanks and ordinary comments.
pub fn tokens(text: &str) -> Result<Vec<Token>, Failure> {
    let mut lexer = Lexer {
        text,
        bytes: text.as_bytes(),
        at: 0,
    };
    let mut found = Vec::new();
    while let Some(token) = lexer.next()? {
        found.push(token);
    }
    Ok(found)
}

struct Lexer<'a> {
    text: &'a str,
    bytes: &'a [u8],
    at: usize,
}

fn is_word_start(byte: u8) -> bool {
    byte.is_ascii_alphabetic() || byte == b'_'
}

fn is_word_byte(byte: u8) -> bool {
    byte.is_ascii_alphanumeric() || byte == b'_'
}

impl Lexer<'_> {
    fn byte(&self, offset: usize) -> u8 {
        self.bytes.get(self.at + offset).copied().unwrap_or(0)
    }

    fn starts_with(&self, prefix: &str) -> bool {
        self.bytes[self.at..].starts_with(prefix.as_bytes())
    }

    fn failure<T>(&self, at: usize, what: &str) -> Result<T, Failure> {
        Err(failure_at(self.text, at, what))
    }

    fn next(&mut self) -> Result<Option<Token>, Failure> {
        loop {
            while self.byte(0).is_ascii_whitespace() {
                self.at += 1;
            }
            if self.at == self.bytes.len() {
                return Ok(None);
            }
            let start = self.at;
            let Some(kind) = self.token()? else {
                continue;
            };
            let end = self.at;
            return Ok(Some(Token { kind, start, end }));
        }
    }

    // Moves past one token. `None` for an ordinary comment.
    fn token(&mut self) -> Result<Option<Kind>, Failure> {
        let byte = self.byte(0);
        if self.starts_with("//") {
            return Ok(self.line_comment());
        }
        if self.starts_with("/*") {
            return self.block_comment();
        }
        if let Some(hashes) = self.raw_string_hashes() {
            return self.raw_string(hashes).map(Some);
        }
        if byte == b'"' || self.starts_with("b\"") || self.starts_with("c\"") {
            return self.string().map(Some);
        }
        if self.starts_with("b'") {
            self.at += 1;
            return self.quote().map(Some);
        }
        if byte == b'\'' {
            return self.quote().map(Some);
        }
        if is_word_start(byte) {
            return self.word().map(Some);
        }
        if byte.is_ascii_digit() {
            self.number();
            return Ok(Some(Kind::Literal));
        }
        if !byte.is_ascii() {
            return self.failure(self.at, "a character that isn't ASCII outside of texts and clauses");
        }
        self.at += 1;
        Ok(Some(Kind::Mark))
    }

    fn line_comment(&mut self) -> Option<Kind> {
        let kind = if self.starts_with("//!") {
            Some(Kind::InnerDoc)
        } else if self.starts_with("///") && !self.starts_with("////") {
            Some(Kind::OuterDoc)
        } else {
            None
        };
        while self.at < self.bytes.len() && self.byte(0) != b'\n' {
            self.at += 1;
        }
        kind
    }

    fn block_comment(&mut self) -> Result<Option<Kind>, Failure> {
        let start = self.at;
        let kind = if self.starts_with("/*!") {
            Some(Kind::InnerDoc)
        } else if self.starts_with("/**") && !self.starts_with("/***") && !self.starts_with("/**/") {
            Some(Kind::OuterDoc)
        } else {
            None
        };
        let mut depth = 0;
        while self.at < self.bytes.len() {
            if self.starts_with("/*") {
                depth += 1;
                self.at += 2;
            } else if self.starts_with("*/") {
                depth -= 1;
                self.at += 2;
                if depth == 0 {
                    return Ok(kind);
                }
            } else {
                self.at += 1;
            }
        }
        self.failure(start, "a comment without an end")
    }

    // The number of `#` of a raw string that starts here.
    fn raw_string_hashes(&self) -> Option<usize> {
        let prefix = ["r", "br", "cr"].iter().find(|prefix| self.starts_with(prefix))?;
        let rest = &self.bytes[self.at + prefix.len()..];
        let hashes = rest.iter().take_while(|byte| **byte == b'#').count();
        (rest.get(hashes) == Some(&b'"')).then_some(hashes)
    }

    fn raw_string(&mut self, hashes: usize) -> Result<Kind, Failure> {
        let start = self.at;
        while self.byte(0) != b'"' {
            self.at += 1;
        }
        let end = format!("\"{}", "#".repeat(hashes));
        self.at += 1;
        match self.text[self.at..].find(&end) {
            Some(length) => {
                self.at += length + end.len();
                Ok(Kind::Literal)
            }
            None => self.failure(start, "a string without an end"),
        }
    }

    fn string(&mut self) -> Result<Kind, Failure> {
        let start = self.at;
        if self.byte(0) != b'"' {
            self.at += 1;
        }
        self.at += 1;
        while self.at < self.bytes.len() {
            match self.byte(0) {
                b'"' => {
                    self.at += 1;
                    return Ok(Kind::Literal);
                }
                b'\\' => self.at += 2,
                _ => self.at += 1,
            }
        }
        self.failure(start, "a string without an end")
    }

    // A character or a lifetime, from its apostrophe on.
    fn quote(&mut self) -> Result<Kind, Failure> {
        let start = self.at;
        let mut rest = self.text[self.at + 1..].char_indices();
        let Some((_, first)) = rest.next() else {
            return self.failure(start, "an apostrophe at the end");
        };
        if first == '\\' {
            self.at += 3;
            while self.at < self.bytes.len() && self.byte(0) != b'\'' {
                self.at += 1;
            }
            self.at += 1;
            return Ok(Kind::Literal);
        }
        if let Some((offset, '\'')) = rest.next() {
            self.at += 1 + offset + 1;
            return Ok(Kind::Literal);
        }
        self.at += 1;
        while is_word_byte(self.byte(0)) {
            self.at += 1;
        }
        Ok(Kind::Lifetime)
    }

    fn number(&mut self) {
        while is_word_byte(self.byte(0)) {
            self.at += 1;
        }
        if self.byte(0) == b'.' && self.byte(1).is_ascii_digit() {
            self.at += 1;
            while is_word_byte(self.byte(0)) {
                self.at += 1;
            }
        }
    }

    fn word(&mut self) -> Result<Kind, Failure> {
        let start = self.at;
        if self.starts_with("r#") {
            self.at += 2;
        }
        while is_word_byte(self.byte(0)) {
            self.at += 1;
        }
        match &self.text[start..self.at] {
            "requires" | "ensures" => self.clause(start),
            "ghost" => self.ghost(start),
            _ => Ok(Kind::Word),
        }
    }

    // Moves to the first of `ends` outside of brackets and strings. An apostrophe is a part of a name here.
    fn skip_to(&mut self, start: usize, ends: &[u8]) -> Result<(), Failure> {
        let mut depth = 0;
        while self.at < self.bytes.len() {
            let byte = self.byte(0);
            if depth == 0 && ends.contains(&byte) {
                return Ok(());
            }
            match byte {
                b'"' => {
                    self.string()?;
                    continue;
                }
                b'{' | b'(' | b'[' => depth += 1,
                b'}' | b')' | b']' if depth == 0 => break,
                b'}' | b')' | b']' => depth -= 1,
                _ => {}
            }
            self.at += 1;
        }
        self.failure(start, "a clause or a ghost item without an end")
    }

    // Moves past `{..}`, from the brace on.
    fn braces(&mut self, start: usize) -> Result<(), Failure> {
        self.at += 1;
        self.skip_to(start, b"}")?;
        self.at += 1;
        Ok(())
    }

    fn clause(&mut self, start: usize) -> Result<Kind, Failure> {
        self.skip_to(start, b"{")?;
        self.braces(start)?;
        self.proof(start)?;
        Ok(Kind::Clause)
    }

    // Moves past `by {..}`, if that is next.
    fn proof(&mut self, start: usize) -> Result<(), Failure> {
        let rest = self.text[self.at..].trim_start();
        let Some(body) = rest.strip_prefix("by") else {
            return Ok(());
        };
        if !body.trim_start().starts_with('{') {
            return Ok(());
        }
        self.skip_to(start, b"{")?;
        self.braces(start)
    }

    fn ghost(&mut self, start: usize) -> Result<Kind, Failure> {
        let rest = self.text[self.at..].trim_start();
        let name = rest.len() - rest.trim_start_matches(|c: char| c.is_ascii_alphanumeric() || c == '_' || c == '«').len();
        let after = rest[name..].trim_start();
        let is_import = rest.starts_with("use ");
        if name == 0 || !(is_import || after.starts_with(':') || after.starts_with('=') || after.starts_with('»')) {
            return self.failure(start, "a ghost item of an unknown form");
        }
        self.skip_to(start, b";,}")?;
        if self.byte(0) != b'}' {
            self.at += 1;
        }
        Ok(Kind::Ghost)
    }
}
