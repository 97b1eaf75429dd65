//! Cases as text: a file of cases, the values of an input, the steps of a source, and the comparison of results.
//!
//! A file consists of blocks with an empty line between them: comments, definitions and cases. A case is a call with its options,
//! the input, a line `----` and the expected result.
//!
//! ```text
//! # A comment.
//! let s(time) = u32(9) u16(0, 16) u64(time)
//!
//! list-file each-order
//! H(16) A(4, 0) s(20)
//! ----
//! 0 0 20 0 9 0 8
//! end
//! ```
//!
//! An input consists of bytes (`0a`), texts in quotes, `u8`, `u16`, `u32` and `u64` of numbers, `digits(NUMBER)`, `repeat(COUNT, ..)`,
//! `cut(SIZE, ..)` (the first bytes), `patch(OFFSET, NEW, ..)`, `for(COUNT, ..)`, in which `n` is the number of the turn, and names that
//! the file defines by `let`, or `builders.test` for all files. A number is a sum or difference of numbers, of `length(..)` and of
//! `times(.., ..)`. The driver `test_rows` knows neither `for` nor `times` nor `digits`.
//!
//! Options:
//!
//! - `big-endian`, or `each-order` for both byte orders;
//! - `each=FIRST..LAST` for each of these values of `n` in the input, where `N` ends a line of the result that ends with the number;
//! - `each-length` for each prefix of the input, `each-split` for two slices;
//! - `source=STEPS` for a source (`1` byte, `pause`, `fail(KIND)`, `grow(N)`, `N*STEP`, `rest`);
//! - `each-read=STEPS` and `each-seek=fail(KIND)` for each place in turn.
//!
//! Numbers with the same result are one line of the result, such as `0..103: open: IoError(UnexpectedEof)`. An option that the call
//! doesn't ask for is an error.

mod call;
mod case;
mod file;
mod outcome;
mod output;
mod steps;
mod values;

use std::error::Error;

pub use call::Call;
pub use case::{Case, number, split_argument, split_count};
pub use file::{CaseFile, Runner};
pub use output::Output;
pub use steps::error_kind;

/// The result of a function of a test. An error says what is wrong with the case.
pub type Tested<T = ()> = Result<T, Box<dyn Error>>;
