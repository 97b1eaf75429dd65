//! The result of a case, whose call is made once, or once for each length, read, seek or split of its input.

use super::steps::{error_kind, parse_steps};
use super::values::Scope;
use super::{Call, Case, Output, Tested, number, split_argument};
use dewikura::perfdata_base::raw::Endianness;
use std::io::ErrorKind;

/// The largest number of seeks that an opening does.
const MAX_SEEKS: usize = 1000;

/// Makes the call of a case. Returns whether there is a call of this name.
pub type Calls = fn(&Call<'_>, &mut Output) -> Tested<bool>;

/// What differs from call to call, by its number.
#[derive(Clone, Copy)]
enum Variation {
    /// The number of bytes of the input.
    Length,
    /// The size of the first of two slices.
    Split,
    /// The number of bytes that a writer takes.
    Capacity,
    /// The number of bytes that the source returns one by one before its steps; all that it has at first if it stops there.
    Read { stops: bool },
    /// The seek that fails with this kind of error.
    Seek(ErrorKind),
}

impl Variation {
    fn from_case(case: &Case<'_>) -> Tested<Option<Variation>> {
        let plain = [
            ("each-length", Variation::Length),
            ("each-split", Variation::Split),
            ("each-capacity", Variation::Capacity),
        ];
        if let Some(steps) = case.option("each-read") {
            return Ok(Some(Variation::Read {
                stops: steps.starts_with("stop"),
            }));
        }
        if let Some(kind) = case.option("each-seek") {
            return Ok(Some(Variation::Seek(error_kind(split_argument(kind).1)?)));
        }
        Ok(plain
            .into_iter()
            .find(|(name, _)| case.has(name))
            .map(|(_, variation)| variation))
    }

    fn apply<'a>(self, mut call: Call<'a>, number: usize) -> Call<'a> {
        match self {
            Variation::Length => {
                call.bytes = call.bytes.get(..number).unwrap_or(call.bytes);
                call.shown = number;
            }
            Variation::Split => call.split = Some(number),
            Variation::Capacity => call.capacity = Some(number),
            Variation::Read { stops } => {
                call.single_bytes = number;
                call.shown = if stops { number } else { call.shown };
            }
            Variation::Seek(kind) => call.seek_error = Some((number as u64, kind)),
        }
        call
    }
}

/// The results of numbers as lines `FIRST..LAST: RESULT`, where `; ` stands between the lines of a result.
fn lines(results: &[(u64, String)]) -> String {
    let mut out = Output::default();
    for range in results.chunk_by(|one, next| one.1 == next.1) {
        let ((first, outcome), (last, _)) = (&range[0], &range[range.len() - 1]);
        write!(out, "{first}");
        if first != last {
            write!(out, "..{last}");
        }
        writeln!(
            out,
            ": {}",
            outcome.trim_end_matches('\n').replace('\n', "; ")
        );
    }
    out.text
}

/// The result of a case.
#[derive(Clone, Copy)]
pub struct Outcome<'a> {
    pub calls: Calls,
    pub case: &'a Case<'a>,
    pub scope: Scope<'a>,
}

impl<'a> Outcome<'a> {
    fn call_once(&self, call: &Call<'_>) -> Tested<String> {
        let mut out = Output::default();
        if (self.calls)(call, &mut out)? {
            Ok(out.text)
        } else {
            Err(format!("an unknown call: {}", call.case.call).into())
        }
    }

    /// The results for each number of a variation. Seeks end with the first that isn't done.
    fn call_each(&self, call: &Call<'_>, variation: Variation) -> Tested<String> {
        let complete = self.call_once(call)?;
        let is_seek = matches!(variation, Variation::Seek(_));
        let last = if is_seek {
            MAX_SEEKS
        } else {
            self.case.size("up-to", call.bytes.len())?
        };
        let mut results = Vec::new();
        for number in self.case.size("after", 0)?..=last {
            let outcome = self.call_once(&variation.apply(*call, number))?;
            if is_seek && outcome == complete {
                break;
            }
            results.push((number as u64, outcome));
        }
        Ok(lines(&results))
    }

    /// The result for one byte order and turn.
    fn turn_text(&self) -> Tested<String> {
        let case = self.case;
        let values = self.scope.values(case.input)?;
        let (source, each_read) = (case.option("source"), case.option("each-read"));
        let steps = parse_steps(each_read.or(source).unwrap_or(""))?;
        let call = Call {
            case,
            bytes: values[0].bytes()?,
            values: &values,
            endian: self.scope.endian,
            split: case.number("split")?.map(|at| at as usize),
            single_bytes: 0,
            steps: &steps,
            shown: case.size("shown", usize::MAX)?,
            seek_error: None,
            capacity: None,
        };
        match Variation::from_case(case)? {
            Some(variation) => self.call_each(&call, variation),
            None => self.call_once(&call),
        }
    }

    /// The results for one byte order. With the option `each=FIRST..LAST` the input has each of these values of `n`; `N` stands for
    /// it at the end of a line.
    fn order_text(&self) -> Tested<String> {
        let Some(range) = self.case.option("each") else {
            return self.turn_text();
        };
        let (first, last) = range.split_once("..").unwrap_or((range, range));
        let mut results = Vec::new();
        for turn in number(first)?..=number(last)? {
            let outcome = Outcome {
                scope: Scope { turn, ..self.scope },
                ..*self
            }
            .turn_text()?;
            results.push((turn, outcome.replace(&format!(" {turn}\n"), " N\n")));
        }
        Ok(lines(&results))
    }

    /// The result of a case. With the option `each-order` it is the result for both byte orders, or both results if they differ.
    pub fn text(mut self) -> Tested<String> {
        if self.case.has("big-endian") {
            self.scope.endian = Endianness::BigEndian;
        }
        let mut outcome = self.order_text()?;
        if self.case.has("each-order") {
            self.scope.endian = Endianness::BigEndian;
            let other = self.order_text()?;
            if other != outcome {
                outcome.push_str("big-endian:\n");
                outcome.push_str(&other);
            }
        }
        // `tests/check_library_memory` reads the option `memory`.
        self.case.option("memory");
        self.case.check_options()?;
        Ok(outcome)
    }
}
