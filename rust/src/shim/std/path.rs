//! Paths.

use super::string::String;

/// A path that is borrowed. It is passed by value.
#[derive(Clone, Copy, Debug, PartialEq, Eq)]
pub struct Path<'a>(&'a ::std::path::Path);

/// A path that is owned.
#[derive(Debug, PartialEq, Eq)]
pub struct PathBuf(String);

impl<'a> Path<'a> {
    /// A text as a path.
    pub fn new(text: &'a str) -> Path<'a> {
        Path(::std::path::Path::new(text))
    }

    /// Whether the path begins with all components of another.
    pub fn starts_with<P: AsPath>(self, base: P) -> bool {
        self.0.starts_with(base.as_path_str())
    }
}

impl PathBuf {
    /// A path of Rust's.
    pub fn from_std(text: ::std::string::String) -> PathBuf {
        PathBuf(String::from_std(text))
    }

    /// The path, borrowed.
    pub fn as_path(&self) -> Path<'_> {
        Path::new(&self.0)
    }
}

/// What names a path.
pub trait AsPath {
    /// The text of the path.
    fn as_path_str(&self) -> &str;
}

impl AsPath for str {
    fn as_path_str(&self) -> &str {
        self
    }
}

impl AsPath for String {
    fn as_path_str(&self) -> &str {
        self
    }
}

impl AsPath for Path<'_> {
    fn as_path_str(&self) -> &str {
        // Each path here is made of a text.
        self.0.to_str().unwrap_or_default()
    }
}

impl AsPath for PathBuf {
    fn as_path_str(&self) -> &str {
        &self.0
    }
}

impl<P: AsPath + ?Sized> AsPath for &P {
    fn as_path_str(&self) -> &str {
        (**self).as_path_str()
    }
}
