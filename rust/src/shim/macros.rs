//! Macros that take a runtime or an allocator first.

/// Prints a format on standard output.
#[doc(hidden)]
#[macro_export]
macro_rules! __shim_print {
    ($rt:expr; $($format:tt)*) => {
        $crate::shim::std::rt::print(&$rt, format_args!($($format)*))
    };
}

/// Prints a format and a line end on standard output.
#[doc(hidden)]
#[macro_export]
macro_rules! __shim_println {
    ($rt:expr; $($format:tt)*) => {
        $crate::shim::std::rt::print(&$rt, format_args!("{}\n", format_args!($($format)*)))
    };
}

/// Prints a format on standard error.
#[doc(hidden)]
#[macro_export]
macro_rules! __shim_eprint {
    ($rt:expr; $($format:tt)*) => {
        $crate::shim::std::rt::eprint(&$rt, format_args!($($format)*))
    };
}

/// Prints a format and a line end on standard error.
#[doc(hidden)]
#[macro_export]
macro_rules! __shim_eprintln {
    ($rt:expr; $($format:tt)*) => {
        $crate::shim::std::rt::eprint(&$rt, format_args!("{}\n", format_args!($($format)*)))
    };
}

/// Makes a text of a format.
#[doc(hidden)]
#[macro_export]
macro_rules! __shim_format {
    (in $alloc:expr; $($format:tt)*) => {
        $crate::shim::std::string::format($alloc, format_args!($($format)*))
    };
}

/// Makes a vector of its elements, or of a count of equal ones.
#[doc(hidden)]
#[macro_export]
macro_rules! __shim_vec {
    (in $alloc:expr) => {
        Ok::<_, $crate::shim::std::alloc::AllocError>($crate::shim::std::vec::Vec::new($alloc))
    };
    (in $alloc:expr; $element:expr; $count:expr) => {
        $crate::shim::std::vec::Vec::from_elem($alloc, $element, $count)
    };
    (in $alloc:expr; $($element:expr),* $(,)?) => {
        $crate::shim::std::vec::Vec::from_array($alloc, [$($element),*])
    };
}

/// Declares `main` of a program, which runs that of the crate.
#[doc(hidden)]
#[macro_export]
macro_rules! __shim_program {
    ($name:ident) => {
        // The system calls it before Rust's start.
        #[cfg(target_os = "linux")]
        #[used]
        #[unsafe(link_section = ".init_array")]
        static NOTE_STREAMS: extern "C" fn() = $crate::shim::std::rt::note_streams;

        fn main() -> impl ::std::process::Termination {
            $crate::$name::main()
        }
    };
}

pub use __shim_eprint as eprint;
pub use __shim_eprintln as eprintln;
pub use __shim_format as format;
pub use __shim_print as print;
pub use __shim_println as println;
pub use __shim_program as program;
pub use __shim_vec as vec;
