//! Regular expressions, by the crate regex.

/// Patterns for bytes.
pub mod bytes {
    use crate::shim::std::alloc::{AllocError, Global};

    /// A compiled pattern.
    #[derive(Debug)]
    pub struct Regex(::regex::bytes::Regex);

    /// What searches for a pattern.
    #[derive(Clone, Copy, Debug)]
    pub struct Matcher<'r>(&'r ::regex::bytes::Regex);

    impl Regex {
        /// Compiles a pattern.
        pub fn new(_: Global, source: &str) -> Result<Regex, ::regex::Error> {
            ::regex::bytes::Regex::new(source).map(Regex)
        }

        /// What searches for this pattern.
        pub fn matcher(&self, _: Global) -> Result<Matcher<'_>, AllocError> {
            Ok(Matcher(&self.0))
        }
    }

    impl Matcher<'_> {
        /// Whether a part of a text matches.
        pub fn is_match(&mut self, haystack: &[u8]) -> bool {
            self.0.is_match(haystack)
        }
    }
}
