//! Erases the sources of the libraries and programs below `crates/` into cargo's folder for built files.

mod erase;

use erase::Package;
use std::collections::BTreeSet;
use std::env;
use std::error::Error;
use std::fs;
use std::path::{Path, PathBuf};

/// The programs, of which the names are also those of Cargo.toml's binaries.
const PROGRAMS: [&str; 4] = ["perflist", "perfinfo", "perfjson", "perffold"];

fn main() -> Result<(), Box<dyn Error>> {
    let root = PathBuf::from(env::var("CARGO_MANIFEST_DIR")?);
    let out = PathBuf::from(env::var("OUT_DIR")?);
    let has_programs = env::var_os("CARGO_FEATURE_PROGRAMS").is_some();
    let package = Package::read(&root)?;
    println!("cargo::rerun-if-changed=crates.txt");
    println!("cargo::rerun-if-changed=rust/build.rs");
    println!("cargo::rerun-if-changed=rust/erase");
    let wanted = wanted(&package, has_programs);
    let mut modules = String::new();
    for member in package.crates.iter().filter(|member| wanted.contains(&member.name)) {
        println!("cargo::rerun-if-changed={}", package.sources(member).display());
        package.write(member, &out)?;
        modules.push_str(&declaration(&member.name, package.is_program(member)));
    }
    write_changed(&out.join("lib.rs"), &modules)?;
    Ok(())
}

// A library is wanted unless programs alone use what it stands on; test drivers and examples aren't.
fn wanted(package: &Package, has_programs: bool) -> BTreeSet<String> {
    let mut wanted = BTreeSet::new();
    for member in &package.crates {
        let is_program = package.is_program(member);
        let is_wanted = if is_program {
            has_programs && PROGRAMS.contains(&member.name.as_str())
        } else {
            has_programs || !uses_program_library(package, &member.name)
        };
        if is_wanted {
            package.closure(&member.name, &mut wanted);
        }
    }
    wanted
}

// Whether a crate, or one below it, uses a library that the feature `programs` brings.
fn uses_program_library(package: &Package, name: &str) -> bool {
    let mut below = BTreeSet::new();
    package.closure(name, &mut below);
    package
        .crates
        .iter()
        .filter(|member| below.contains(&member.name))
        .any(|member| ["clap", "regex"].iter().any(|library| member.uses.contains(*library)))
}

// Declares the module of a crate. What rustc and clippy say of names that only proofs use is no concern here.
fn declaration(name: &str, is_program: bool) -> String {
    let hidden = if is_program { "#[doc(hidden)] " } else { "" };
    format!("{hidden}#[allow(warnings, clippy::all)] pub mod {name};\n")
}

fn write_changed(path: &Path, text: &str) -> Result<(), Box<dyn Error>> {
    if fs::read_to_string(path).is_ok_and(|found| found == text) {
        return Ok(());
    }
    Ok(fs::write(path, text)?)
}
