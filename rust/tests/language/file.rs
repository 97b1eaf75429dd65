//! Files of cases, and the comparison of their results.

use super::outcome::{Calls, Outcome};
use super::values::{Definition, Scope};
use super::{Case, Tested};
use dewikura::perfdata_base::raw::Endianness;
use std::fs;
use std::path::{Path, PathBuf};

/// A part of a file: comments before the definitions or the case, if there is one.
#[derive(Debug)]
enum Block<'a> {
    Definitions(Vec<Definition<'a>>),
    Case(Case<'a>),
    Comments,
}

impl<'a> Block<'a> {
    fn parse(text: &'a str) -> Tested<Block<'a>> {
        let mut text = text.trim_matches('\n');
        while text.starts_with('#') {
            text = text.split_once('\n').map_or("", |(_, rest)| rest);
        }
        match text.strip_prefix("let ") {
            Some(definitions) => {
                let definitions = definitions.split("\nlet ").map(Definition::parse);
                Ok(Block::Definitions(definitions.collect::<Tested<_>>()?))
            }
            None if text.is_empty() => Ok(Block::Comments),
            None => Ok(Block::Case(Case::parse(text)?)),
        }
    }
}

/// A file of cases.
#[derive(Debug)]
pub struct CaseFile {
    path: PathBuf,
    text: String,
}

impl CaseFile {
    pub fn new(path: impl Into<PathBuf>, text: String) -> CaseFile {
        CaseFile {
            path: path.into(),
            text,
        }
    }

    pub fn read(path: &Path) -> Tested<CaseFile> {
        let text =
            fs::read_to_string(path).map_err(|error| format!("{}: {error}", path.display()))?;
        Ok(CaseFile::new(path, text))
    }

    pub fn path(&self) -> &Path {
        &self.path
    }

    /// The files of a folder, in the order of their names.
    pub fn read_folder(folder: &Path) -> Tested<Vec<CaseFile>> {
        let mut paths = Vec::new();
        for entry in
            fs::read_dir(folder).map_err(|error| format!("{}: {error}", folder.display()))?
        {
            paths.push(entry?.path());
        }
        paths.retain(|path| {
            path.extension()
                .is_some_and(|extension| extension == "test")
        });
        paths.sort();
        paths.iter().map(|path| CaseFile::read(path)).collect()
    }

    /// The number of lines that end the input of a case.
    pub fn case_count(&self) -> usize {
        self.text.lines().filter(|line| *line == "----").count()
    }

    /// Whether the file has definitions for the other files, and no cases.
    pub fn is_of_definitions(&self) -> bool {
        self.path.to_string_lossy().ends_with("builders.test")
    }

    /// Each block with the number of its first line and its text.
    fn blocks(&self) -> impl Iterator<Item = (usize, &str)> {
        let mut line = 1;
        self.text.split("\n\n").map(move |text| {
            let start = line;
            line += text.matches('\n').count() + 2;
            (start, text)
        })
    }

    /// The definitions of the file, which has no cases.
    pub fn definitions(&self) -> Tested<Vec<Definition<'_>>> {
        let mut definitions = Vec::new();
        for (line, text) in self.blocks() {
            match Block::parse(text)? {
                Block::Definitions(mut found) => definitions.append(&mut found),
                Block::Case(_) => {
                    return Err(format!(
                        "{}:{line}: a case among definitions",
                        self.path.display()
                    )
                    .into());
                }
                Block::Comments => {}
            }
        }
        Ok(definitions)
    }
}

/// Runs the cases of files, and compares their results.
pub struct Runner<'a> {
    calls: Calls,
    /// Whether the files are printed with the results in place of the expected ones.
    prints_results: bool,
    /// The definitions that hold in each file.
    definitions: Vec<Definition<'a>>,
    pub cases: usize,
    pub differing: usize,
}

impl<'a> Runner<'a> {
    pub fn new(calls: Calls, prints_results: bool) -> Runner<'a> {
        Runner {
            calls,
            prints_results,
            definitions: Vec::new(),
            cases: 0,
            differing: 0,
        }
    }

    /// Adds definitions that hold in each file.
    pub fn define(&mut self, mut definitions: Vec<Definition<'a>>) {
        self.definitions.append(&mut definitions);
    }

    /// The result of a case, or the message of its error.
    fn result(&self, definitions: &[Definition<'_>], case: &Case<'_>) -> String {
        let scope = Scope {
            definitions,
            endian: Endianness::LittleEndian,
            turn: 0,
        };
        let outcome = Outcome {
            calls: self.calls,
            case,
            scope,
        };
        outcome
            .text()
            .unwrap_or_else(|error| format!("invalid case: {error}\n"))
    }

    /// Compares the result of a case with the expected one.
    fn compare(&mut self, place: &str, case: &Case<'_>, result: &str) {
        self.cases += 1;
        if self.prints_results {
            print!("----\n{result}");
        } else if result.trim_end_matches('\n') != case.expected {
            self.differing += 1;
            println!("{place}: {}", case.call);
            result
                .lines()
                .for_each(|line| println!("  result:   {line}"));
            case.expected
                .lines()
                .for_each(|line| println!("  expected: {line}"));
        }
    }

    /// Runs the cases of a file, whose definitions hold from their places on. Fails if it has no cases, or if not each line `----` is
    /// that of a case.
    pub fn run_file(&mut self, file: &'a CaseFile) -> Tested {
        let (mut definitions, before) = (self.definitions.clone(), self.cases);
        for (line, text) in file.blocks() {
            let place = format!("{}:{line}", file.path.display());
            if self.prints_results {
                println!(
                    "{}",
                    text.split("\n----").next().unwrap_or("").trim_matches('\n')
                );
            }
            match Block::parse(text).map_err(|error| format!("{place}: {error}"))? {
                Block::Definitions(mut found) => definitions.append(&mut found),
                Block::Case(case) => self.compare(&place, &case, &self.result(&definitions, &case)),
                Block::Comments => {}
            }
            if self.prints_results {
                println!();
            }
        }
        match self.cases - before {
            0 => Err(format!("{}: no cases", file.path.display()).into()),
            count if count == file.case_count() => Ok(()),
            count => Err(format!(
                "{}: {count} of {} cases",
                file.path.display(),
                file.case_count()
            )
            .into()),
        }
    }
}
