//! Rattle's `std`: what isn't declared here is Rust's.

pub mod alloc;
pub mod borrow;
pub mod clone;
pub mod collections;
pub mod env;
pub mod fmt;
pub mod fs;
pub mod io;
pub mod iter;
pub mod marker;
pub mod os;
pub mod path;
pub mod rc;
pub mod rt;
pub mod slice;
pub mod snapshot;
pub mod sort;
pub mod str;
pub mod string;
pub mod time;
pub mod vec;

pub use ::std::{array, cell, char, cmp, convert, error, hash, mem, num, ops, option, process, result};
