//! The program `perflist`.

dewikura::shim::macros::program!(perflist);
