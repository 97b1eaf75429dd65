//! A case: a call, its options, its input and its expected result.

use super::Tested;
use std::cell::RefCell;
use std::collections::BTreeSet;

/// A call, its options, its input and its expected result. It remembers the options that were asked for.
#[derive(Clone, Debug)]
pub struct Case<'a> {
    pub call: &'a str,
    pub input: &'a str,
    pub expected: &'a str,
    options: Vec<&'a str>,
    asked: RefCell<BTreeSet<String>>,
}

impl<'a> Case<'a> {
    /// Parses a call with its options, the lines of the input, a line `----`, and the expected result.
    pub fn parse(text: &'a str) -> Tested<Case<'a>> {
        let (first, expected) = text
            .split_once("\n----")
            .ok_or("a case without a line ----")?;
        let (first, input) = first.split_once('\n').unwrap_or((first, ""));
        let mut words = first.split_whitespace();
        Ok(Case {
            call: words.next().ok_or("a case without a call")?,
            input,
            expected: expected.trim_matches('\n'),
            options: words.collect(),
            asked: RefCell::default(),
        })
    }

    /// All words after the call.
    pub fn words(&self) -> &[&'a str] {
        let mut asked = self.asked.borrow_mut();
        asked.extend(
            self.options
                .iter()
                .map(|option| option_name(option).to_string()),
        );
        &self.options
    }

    /// The values of the options `NAME=VALUE`; an option `NAME` has the empty text.
    pub fn values(&self, name: &str) -> impl Iterator<Item = &'a str> + '_ {
        self.asked.borrow_mut().insert(name.to_string());
        let name = name.to_string();
        let named = self
            .options
            .iter()
            .filter(move |option| option_name(option) == name);
        named.map(|option| option.split_once('=').map_or("", |(_, value)| value))
    }

    /// The value of the first option of this name.
    pub fn option(&self, name: &str) -> Option<&'a str> {
        self.values(name).next()
    }

    /// Whether the case has an option.
    pub fn has(&self, name: &str) -> bool {
        self.option(name).is_some()
    }

    /// The value of an option as a number.
    pub fn number(&self, name: &str) -> Tested<Option<u64>> {
        self.option(name).map(number).transpose()
    }

    /// The value of an option as a size; `default` if there is no such option.
    pub fn size(&self, name: &str, default: usize) -> Tested<usize> {
        Ok(self.number(name)?.map_or(default, |number| number as usize))
    }

    /// The value of an option as a number of a smaller type; 0 if there is no such option.
    pub fn small<T: TryFrom<u64> + Default>(&self, name: &str) -> Tested<T> {
        match self.number(name)? {
            Some(number) => T::try_from(number).map_err(|_| format!("{name} is too large").into()),
            None => Ok(T::default()),
        }
    }

    /// The value of an option as numbers with a comma between them; none if there is no such option.
    pub fn numbers(&self, name: &str) -> Tested<Vec<u64>> {
        self.option(name)
            .unwrap_or("")
            .split_terminator(',')
            .map(number)
            .collect()
    }

    /// Fails if the case has an option that nothing asked for.
    pub fn check_options(&self) -> Tested {
        let asked = self.asked.borrow();
        match self
            .options
            .iter()
            .find(|option| !asked.contains(option_name(option)))
        {
            Some(option) => Err(format!("an unknown option: {option}").into()),
            None => Ok(()),
        }
    }
}

fn option_name(option: &str) -> &str {
    option.split_once('=').map_or(option, |(name, _)| name)
}

/// A number, decimal or hexadecimal after `0x`.
pub fn number(word: &str) -> Tested<u64> {
    let number = match word.strip_prefix("0x") {
        Some(digits) => u64::from_str_radix(digits, 16),
        None => word.parse(),
    };
    number.map_err(|_| format!("not a number: {word}").into())
}

/// The name and the argument of `NAME(ARGUMENT)`. The argument is empty if there are no parentheses.
pub fn split_argument(word: &str) -> (&str, &str) {
    let (name, argument) = word.split_once('(').unwrap_or((word, ""));
    (name, argument.trim_end_matches(')'))
}

/// The number and the rest of `N*REST`. The number is 1 if there is none.
pub fn split_count(word: &str) -> Tested<(usize, &str)> {
    match word.split_once('*') {
        Some((count, rest)) => Ok((number(count)? as usize, rest)),
        None => Ok((1, word)),
    }
}
