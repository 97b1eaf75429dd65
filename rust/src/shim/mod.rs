//! The part of Rattle's standard library, and of its ports of crates, that the sources use.
//!
//! A collection here is Rust's, in a type whose methods return an error when memory runs out.

#[cfg(not(target_pointer_width = "64"))]
compile_error!("the proofs of the sources take it that usize has 64 bits");

pub mod base64;
pub mod bitflags;
pub mod bstr;
pub mod c;
#[cfg(feature = "programs")]
pub mod clap;
pub mod hasher;
pub mod hex;
pub mod indexmap;
pub mod itoa;
pub mod json;
pub mod macros;
pub mod prelude;
#[cfg(feature = "programs")]
pub mod regex;
pub mod serde;
pub mod std;

pub use ::arrayvec;
pub use ::byteorder;
pub use ::memchr;
pub use ::thiserror;
