//! What a value is written to, as a series of events.

use super::std::alloc::AllocError;
use super::std::string::String;
use super::std::vec::Vec;
use ::std::fmt::Display;

/// How a name is written. The derives of the sources write each as it is.
#[derive(Clone, Copy, Debug, PartialEq, Eq)]
pub enum Case {
    /// As it is declared.
    AsIs,
}

/// What a name is of.
#[derive(Clone, Copy, Debug, PartialEq, Eq)]
pub enum NameKind {
    /// A field.
    Field,
    /// A variant.
    Variant,
}

impl Case {
    /// Appends a name in this case.
    pub fn append(self, _: NameKind, name: &str, out: &mut String) -> Result<(), AllocError> {
        match self {
            Case::AsIs => out.push_str(name),
        }
    }
}

/// A format: what the values of the sources are written to.
pub trait Serializer {
    type Error;

    fn bool(&mut self, v: bool) -> Result<(), Self::Error>;

    fn i64(&mut self, v: i64) -> Result<(), Self::Error>;

    fn u64(&mut self, v: u64) -> Result<(), Self::Error>;

    fn i128(&mut self, v: i128) -> Result<(), Self::Error>;

    fn u128(&mut self, v: u128) -> Result<(), Self::Error>;

    fn f32(&mut self, v: f32) -> Result<(), Self::Error>;

    fn f64(&mut self, v: f64) -> Result<(), Self::Error>;

    fn char(&mut self, v: char) -> Result<(), Self::Error>;

    fn str(&mut self, v: &str) -> Result<(), Self::Error>;

    fn bytes(&mut self, v: &[u8]) -> Result<(), Self::Error>;

    fn unit(&mut self) -> Result<(), Self::Error>;

    /// A variant without data.
    fn str_cased(&mut self, name: &str, case: Case) -> Result<(), Self::Error>;

    fn begin_seq(&mut self, len: Option<usize>) -> Result<(), Self::Error>;

    fn end_seq(&mut self) -> Result<(), Self::Error>;

    fn begin_map(&mut self, len: Option<usize>) -> Result<(), Self::Error>;

    fn end_map(&mut self) -> Result<(), Self::Error>;

    /// The name of a field.
    fn key_cased(&mut self, name: &str, case: Case) -> Result<(), Self::Error>;

    /// The name of a variant, as the key of its data.
    fn variant_key(&mut self, name: &str, case: Case) -> Result<(), Self::Error>;

    /// What is before a key of any type.
    fn begin_key(&mut self) -> Result<(), Self::Error>;

    /// What is after a key of any type.
    fn end_key(&mut self) -> Result<(), Self::Error>;

    /// The members of the next map are those of the map that is open.
    fn flatten_next(&mut self) -> Result<(), Self::Error>;

    /// An error with a text.
    fn custom(&self, message: &str) -> Self::Error;

    /// The text that a value prints.
    fn collect_str<T: Display>(&mut self, value: &T) -> Result<(), Self::Error>;

    /// The name of a field, as it is.
    fn key(&mut self, name: &str) -> Result<(), Self::Error> {
        self.key_cased(name, Case::AsIs)
    }
}

/// What contracts say of a value that is written.
pub trait Described {}

/// A value that can be written.
pub trait Serialize: Described {
    /// Writes the value.
    fn serialize<S: Serializer>(&self, out: &mut S) -> Result<(), S::Error>;
}

macro_rules! number {
    ($($name:ty => $method:ident as $as:ty),*) => {
        $(
            impl Described for $name {}

            impl Serialize for $name {
                fn serialize<S: Serializer>(&self, out: &mut S) -> Result<(), S::Error> {
                    out.$method(<$as>::from(*self))
                }
            }
        )*
    };
}

number! {
    bool => bool as bool, u8 => u64 as u64, u16 => u64 as u64, u32 => u64 as u64, u64 => u64 as u64,
    i8 => i64 as i64, i16 => i64 as i64, i32 => i64 as i64, i64 => i64 as i64, u128 => u128 as u128,
    i128 => i128 as i128, f32 => f32 as f32, f64 => f64 as f64, char => char as char
}

impl Described for usize {}

impl Serialize for usize {
    fn serialize<S: Serializer>(&self, out: &mut S) -> Result<(), S::Error> {
        out.u64(*self as u64)
    }
}

impl Described for str {}

impl Serialize for str {
    fn serialize<S: Serializer>(&self, out: &mut S) -> Result<(), S::Error> {
        out.str(self)
    }
}

impl Described for String {}

impl Serialize for String {
    fn serialize<S: Serializer>(&self, out: &mut S) -> Result<(), S::Error> {
        out.str(self)
    }
}

impl<T: Described + ?Sized> Described for &T {}

impl<T: Serialize + ?Sized> Serialize for &T {
    fn serialize<S: Serializer>(&self, out: &mut S) -> Result<(), S::Error> {
        (**self).serialize(out)
    }
}

impl<T: Described> Described for Option<T> {}

impl<T: Serialize> Serialize for Option<T> {
    fn serialize<S: Serializer>(&self, out: &mut S) -> Result<(), S::Error> {
        match self {
            Some(value) => value.serialize(out),
            None => out.unit(),
        }
    }
}

impl<T: Described> Described for [T] {}

impl<T: Serialize> Serialize for [T] {
    fn serialize<S: Serializer>(&self, out: &mut S) -> Result<(), S::Error> {
        out.begin_seq(Some(self.len()))?;
        for value in self {
            value.serialize(out)?;
        }
        out.end_seq()
    }
}

impl<T: Described> Described for Vec<T> {}

impl<T: Serialize> Serialize for Vec<T> {
    fn serialize<S: Serializer>(&self, out: &mut S) -> Result<(), S::Error> {
        self.as_slice().serialize(out)
    }
}

impl<A: Described, B: Described> Described for (A, B) {}

impl<A: Serialize, B: Serialize> Serialize for (A, B) {
    fn serialize<S: Serializer>(&self, out: &mut S) -> Result<(), S::Error> {
        out.begin_seq(Some(2))?;
        self.0.serialize(out)?;
        self.1.serialize(out)?;
        out.end_seq()
    }
}
