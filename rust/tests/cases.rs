//! Runs the cases of `reader/`, `code/` and `crates/test_rows/data`, or of the files that the arguments name.
//!
//! With the argument `--update` the files that follow are printed with the results in place of the expected ones.

mod code;
mod language;
mod library;
mod reader;

use language::{Call, CaseFile, Output, Runner, Tested};
use std::env;
use std::path::Path;

/// The folders of cases, below that of the package. The definitions of `builders.test` hold in all of them.
const FOLDERS: [&str; 3] = [
    "crates/test_rows/data",
    "rust/tests/reader",
    "rust/tests/code",
];

/// The file of cases of the proved examples in `test_rows`, which are no part of the library.
const OF_PROVED_EXAMPLES: &str = "crates/test_rows/data/examples.test";

fn call(call: &Call<'_>, out: &mut Output) -> Tested<bool> {
    Ok(reader::call(call, out)? || code::call(call, out)?)
}

fn main() -> Tested {
    let root = Path::new(env!("CARGO_MANIFEST_DIR"));
    let arguments: Vec<String> = env::args().skip(1).collect();
    let mut folders = Vec::new();
    for folder in FOLDERS {
        folders.extend(CaseFile::read_folder(&root.join(folder))?);
    }
    folders.retain(|file| !file.path().ends_with(OF_PROVED_EXAMPLES));
    let (builders, mut files): (Vec<_>, Vec<_>) =
        folders.into_iter().partition(CaseFile::is_of_definitions);
    let named = arguments.iter().filter(|argument| *argument != "--update");
    let named = named
        .map(|path| CaseFile::read(Path::new(path)))
        .collect::<Tested<Vec<_>>>()?;
    if !named.is_empty() {
        files = named;
    }
    let prints_results = arguments.iter().any(|argument| argument == "--update");
    let mut runner = Runner::new(call, prints_results);
    for file in &builders {
        runner.define(file.definitions()?);
    }
    for file in &files {
        runner.run_file(file)?;
    }
    if prints_results {
        return Ok(());
    }
    println!(
        "{} cases in {} files, {} differ",
        runner.cases,
        files.len(),
        runner.differing
    );
    let written: usize = files.iter().map(CaseFile::case_count).sum();
    match runner.differing {
        0 if runner.cases == written => Ok(()),
        0 => Err(format!("{} of {written} cases were run", runner.cases).into()),
        _ => Err("some results differ".into()),
    }
}
