//! Writes the content, of SIZE bytes, of the data in standard input in FORMAT, which is deflate, zlib or zstd. Standard error names what is wrong in them,
//! and the status is then 2. `tests/check_streams` runs it.

use dewikura::shim::std::alloc::Global;
use dewikura::shim::std::vec::Vec as LibraryVec;
use std::env;
use std::error::Error;
use std::io::{self, Read, Write};
use std::process::ExitCode;

/// The content, or a line that says what is wrong.
fn content(format: &str, input: &[u8], size: usize) -> Result<LibraryVec<u8>, String> {
    match format {
        "deflate" => match dewikura::inflate::inflate(Global, input, size) {
            Ok((content, _)) => Ok(content),
            Err(error) => Err(error.to_string()),
        },
        "zlib" => {
            dewikura::inflate::inflate_zlib(Global, input, size).map_err(|error| error.to_string())
        }
        "zstd" => {
            dewikura::zstd::decompress(Global, input, size).map_err(|error| error.to_string())
        }
        _ => Err(format!("unknown format {format}")),
    }
}

fn main() -> Result<ExitCode, Box<dyn Error>> {
    let usage = "usage: decompress FORMAT SIZE";
    let format = env::args().nth(1).ok_or(usage)?;
    let size = env::args().nth(2).ok_or(usage)?.parse()?;
    let mut input = Vec::new();
    io::stdin().read_to_end(&mut input)?;
    match content(&format, &input, size) {
        Ok(content) => {
            io::stdout().write_all(&content)?;
            Ok(ExitCode::SUCCESS)
        }
        Err(error) => {
            eprintln!("{format}: {error}");
            Ok(ExitCode::from(2))
        }
    }
}
