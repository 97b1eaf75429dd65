//! The values of an input: bytes and numbers, which its words stand for.

use super::Tested;
use super::case::{number, split_argument};
use dewikura::perfdata_base::raw::Endianness;

/// The largest size of an input in bytes.
const MAX_SIZE: usize = 64 << 20;

/// A name for a part of an input.
#[derive(Clone, Debug)]
pub struct Definition<'a> {
    name: &'a str,
    parameters: Vec<&'a str>,
    body: &'a str,
}

impl<'a> Definition<'a> {
    /// Parses `NAME(PARAMETERS) = INPUT`. The parameters with their parentheses may be absent.
    pub fn parse(text: &'a str) -> Tested<Definition<'a>> {
        let (head, body) = text.split_once('=').ok_or("a definition without =")?;
        let (name, parameters) = split_argument(head.trim());
        let parameters = parameters.split_terminator(',').map(str::trim).collect();
        Ok(Definition {
            name,
            parameters,
            body,
        })
    }
}

/// What words stand for: bytes, a number, or a number that is a byte too.
#[derive(Clone, Debug, Default)]
pub struct Value {
    bytes: Option<Vec<u8>>,
    number: Option<u64>,
}

impl Value {
    fn from_bytes(bytes: Vec<u8>) -> Value {
        Value {
            bytes: Some(bytes),
            number: None,
        }
    }

    fn from_number(number: u64) -> Value {
        Value {
            bytes: None,
            number: Some(number),
        }
    }

    /// The value of a byte of two hexadecimal digits, or of a number.
    fn from_word(word: &str) -> Tested<Value> {
        match u8::from_str_radix(word, 16) {
            Ok(byte) if word.len() == 2 => Ok(Value {
                bytes: Some(vec![byte]),
                number: word.parse().ok(),
            }),
            _ => Ok(Value::from_number(number(word)?)),
        }
    }

    /// The bytes. Fails if a word stands for none.
    pub fn bytes(&self) -> Tested<&[u8]> {
        Ok(self.bytes.as_deref().ok_or("a number in place of bytes")?)
    }

    pub fn number(&self) -> Tested<u64> {
        Ok(self.number.ok_or("bytes in place of a number")?)
    }

    fn size(&self) -> Tested<usize> {
        let size = usize::try_from(self.number()?)?;
        if size > MAX_SIZE {
            Err("a size above 64 MiB".into())
        } else {
            Ok(size)
        }
    }

    fn add(self, sign: &str, term: &Value) -> Tested<Value> {
        let (first, second) = (self.number()?, term.number()?);
        let sum = if sign == "+" {
            first.checked_add(second)
        } else {
            first.checked_sub(second)
        };
        Ok(Value::from_number(sum.ok_or("a sum outside of 64 bits")?))
    }

    fn append(self, term: &Value) -> Tested<Value> {
        let mut bytes = self.bytes.ok_or("a number in place of bytes")?;
        bytes.extend_from_slice(term.bytes()?);
        Ok(Value::from_bytes(bytes))
    }
}

/// What an input may name.
#[derive(Clone, Copy, Debug)]
pub struct Scope<'a> {
    pub definitions: &'a [Definition<'a>],
    pub endian: Endianness,
    /// The value of `n`: the number of a turn.
    pub turn: u64,
}

impl<'a> Scope<'a> {
    /// The values of a text, between which commas stand. A text without a comma has one.
    pub fn values(self, text: &'a str) -> Tested<Vec<Value>> {
        let mut reader = Reader {
            scope: self,
            arguments: &[],
            rest: text,
        };
        let values = reader.values("")?;
        Ok(values)
    }

    fn definition(&self, name: &str, count: usize) -> Option<&'a Definition<'a>> {
        self.definitions
            .iter()
            .rfind(|it| it.name == name && it.parameters.len() == count)
    }

    /// The value of a definition with these arguments.
    fn expand(self, definition: &'a Definition<'a>, arguments: &[Value]) -> Tested<Value> {
        let arguments: Vec<_> = definition
            .parameters
            .iter()
            .copied()
            .zip(arguments.iter().cloned())
            .collect();
        let mut reader = Reader {
            scope: self,
            arguments: &arguments,
            rest: definition.body,
        };
        let value = reader.value()?;
        reader.expect("")?;
        Ok(value)
    }

    /// The lowest bytes of numbers, this many of each.
    fn numbers(&self, numbers: &[Value], size: usize) -> Tested<Value> {
        let mut bytes = Vec::new();
        for value in numbers {
            let number = value.number()?;
            match self.endian {
                Endianness::LittleEndian => bytes.extend_from_slice(&number.to_le_bytes()[..size]),
                Endianness::BigEndian => bytes.extend_from_slice(&number.to_be_bytes()[8 - size..]),
            }
        }
        Ok(Value::from_bytes(bytes))
    }

    fn function(&self, name: &str, arguments: &[Value]) -> Tested<Value> {
        Ok(match (name, arguments) {
            ("u8", numbers) => self.numbers(numbers, 1)?,
            ("u16", numbers) => self.numbers(numbers, 2)?,
            ("u32", numbers) => self.numbers(numbers, 4)?,
            ("u64", numbers) => self.numbers(numbers, 8)?,
            ("length", [value]) => Value::from_number(value.bytes()?.len() as u64),
            ("times", [first, second]) => {
                Value::from_number(first.number()?.saturating_mul(second.number()?))
            }
            ("digits", [number]) => Value::from_bytes(number.number()?.to_string().into_bytes()),
            ("repeat", [count, value]) => Value::from_bytes(value.bytes()?.repeat(count.size()?)),
            ("cut", [size, value]) => {
                let prefix = value
                    .bytes()?
                    .get(..size.size()?)
                    .ok_or("a cut beyond the end")?;
                Value::from_bytes(prefix.to_vec())
            }
            ("patch", [offset, new, value]) => {
                let (start, new, mut bytes) =
                    (offset.size()?, new.bytes()?, value.bytes()?.to_vec());
                let patched = bytes
                    .get_mut(start..start + new.len())
                    .ok_or("a patch beyond the end")?;
                patched.copy_from_slice(new);
                Value::from_bytes(bytes)
            }
            _ => {
                return Err(
                    format!("an unknown function, or another number of arguments: {name}").into(),
                );
            }
        })
    }
}

/// The first word, sign or text in quotes, and what follows it.
fn split_word(text: &str) -> (&str, &str) {
    let text = text.trim_start();
    let ends_word = |c: char| c.is_whitespace() || "(),+-\"".contains(c);
    let size = match text.chars().next() {
        Some('"') => text[1..].find('"').map_or(1, |at| at + 2),
        Some('(' | ')' | ',' | '+' | '-') => 1,
        _ => text.find(ends_word).unwrap_or(text.len()),
    };
    text.split_at(size)
}

/// A text that is being evaluated, and the arguments that it may name.
struct Reader<'a, 'b> {
    scope: Scope<'a>,
    arguments: &'b [(&'a str, Value)],
    rest: &'a str,
}

impl<'a> Reader<'a, '_> {
    fn next(&mut self) -> &'a str {
        let (word, after) = split_word(self.rest);
        self.rest = after;
        word
    }

    fn peek(&self) -> &'a str {
        split_word(self.rest).0
    }

    fn expect(&mut self, expected: &str) -> Tested {
        let word = self.next();
        if word == expected {
            Ok(())
        } else {
            Err(format!("'{word}' in place of '{expected}'").into())
        }
    }

    /// The sum of numbers, or the bytes up to a comma, a closing parenthesis or the end.
    fn value(&mut self) -> Tested<Value> {
        let mut value: Option<Value> = None;
        while !matches!(self.peek(), "" | ")" | ",") {
            let word = self.next();
            value = Some(match value {
                None => self.term(word)?,
                Some(sum) if matches!(word, "+" | "-") => {
                    let term = self.next();
                    sum.add(word, &self.term(term)?)?
                }
                Some(bytes) => bytes.append(&self.term(word)?)?,
            });
        }
        Ok(value.unwrap_or_else(|| Value::from_bytes(Vec::new())))
    }

    /// The values up to a closing parenthesis, or to the end.
    fn values(&mut self, end: &str) -> Tested<Vec<Value>> {
        let mut values = vec![self.value()?];
        while self.peek() == "," {
            self.next();
            values.push(self.value()?);
        }
        self.expect(end)?;
        Ok(values)
    }

    /// The value of a text in quotes, of a call, or of a name.
    fn term(&mut self, word: &'a str) -> Tested<Value> {
        if let Some(text) = word.strip_prefix('"') {
            let text = text
                .strip_suffix('"')
                .ok_or("a text without its closing quote")?;
            return Ok(Value::from_bytes(text.into()));
        }
        if self.peek() == "(" {
            self.next();
            return self.call(word);
        }
        if let Some((_, argument)) = self.arguments.iter().find(|(name, _)| *name == word) {
            return Ok(argument.clone());
        }
        match self.scope.definition(word, 0) {
            _ if word == "n" => Ok(Value::from_number(self.scope.turn)),
            Some(definition) => self.scope.expand(definition, &[]),
            None => Value::from_word(word),
        }
    }

    fn call(&mut self, name: &str) -> Tested<Value> {
        if name == "for" {
            return self.turns();
        }
        let arguments = self.values(")")?;
        match self.scope.definition(name, arguments.len()) {
            Some(definition) => self.scope.expand(definition, &arguments),
            None => self.scope.function(name, &arguments),
        }
    }

    /// The bytes of each turn of `for(COUNT, BYTES)`.
    fn turns(&mut self) -> Tested<Value> {
        let count = self.value()?.size()?;
        self.expect(",")?;
        let (start, outer) = (self.rest, self.scope.turn);
        let mut bytes = Value::from_bytes(Vec::new());
        for turn in 0..count {
            self.rest = start;
            self.scope.turn = turn as u64;
            bytes = bytes.append(&self.value()?)?;
        }
        self.scope.turn = outer;
        self.expect(")")?;
        Ok(bytes)
    }
}
