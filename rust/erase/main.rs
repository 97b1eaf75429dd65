//! Prints the erased text of files of the repository, or writes the modules of all crates into a folder.
//!
//! `cargo run --example erase -- FILE..`, or `-- --into FOLDER` for all crates. The files are named from the
//! repository's root on, where it has to run.

use erase::{Crate, Package};
use std::env;
use std::error::Error;
use std::fs;
use std::path::Path;

// What the build script alone uses is unused here.
#[allow(dead_code)]
#[path = "mod.rs"]
mod erase;

fn main() -> Result<(), Box<dyn Error>> {
    let package = Package::read(Path::new("."))?;
    let mut arguments = env::args().skip(1);
    while let Some(argument) = arguments.next() {
        if argument == "--into" {
            let folder = arguments.next().ok_or("--into needs a folder")?;
            for member in &package.crates {
                package.write(member, Path::new(&folder))?;
            }
            continue;
        }
        print!("{}", erased(&package, &argument)?);
    }
    Ok(())
}

fn erased(package: &Package, path: &str) -> Result<String, Box<dyn Error>> {
    let is_in = |member: &&Crate| Path::new(path).starts_with(package.sources(member).strip_prefix(".").unwrap_or(Path::new("")));
    let member = package.crates.iter().find(is_in).ok_or_else(|| format!("{path} is in no crate of crates.txt"))?;
    let is_root = path.ends_with("src/lib.rt") || path.ends_with("src/main.rt");
    let text = fs::read_to_string(path)?;
    erase::erase(&text, member, is_root).map_err(|error| format!("{path}:{error}").into())
}
