//! What only some systems have.

pub use ::std::os::*;
