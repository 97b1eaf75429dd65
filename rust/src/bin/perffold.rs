//! The program `perffold`.

dewikura::shim::macros::program!(perffold);
