//! The program `perfinfo`.

dewikura::shim::macros::program!(perfinfo);
