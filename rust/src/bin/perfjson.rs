//! The program `perfjson`.

dewikura::shim::macros::program!(perfjson);
