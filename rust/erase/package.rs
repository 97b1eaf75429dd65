//! The crates of a repository, and the erased text of each of their files.

use super::{Failure, erase};
use std::collections::{BTreeMap, BTreeSet};
use std::fs;
use std::io;
use std::path::{Path, PathBuf};

/// A crate: how its paths change. Each crate of the repository becomes a module of one package.
#[derive(Clone, Debug, Default)]
pub struct Crate {
    pub name: String,
    /// The crates and libraries that it uses.
    pub uses: BTreeSet<String>,
    /// The crates of the repository.
    pub siblings: BTreeSet<String>,
}

impl Crate {
    /// What a path's first name becomes; `None` for a name that isn't a crate.
    pub fn path_of(&self, first: &str) -> Option<String> {
        if self.uses.contains(first) && self.siblings.contains(first) {
            return Some(format!("crate::{first}"));
        }
        if first == "std" || self.uses.contains(first) {
            return Some(format!("crate::shim::{first}"));
        }
        None
    }
}

/// The crates of a repository, in the order of `crates.txt`.
pub struct Package {
    root: PathBuf,
    pub crates: Vec<Crate>,
}

fn invalid(what: String) -> io::Error {
    io::Error::new(io::ErrorKind::InvalidData, what)
}

impl Package {
    /// Reads `crates.txt` of a repository: a line for each crate, with its name and what it uses.
    pub fn read(root: &Path) -> io::Result<Package> {
        let text = fs::read_to_string(root.join("crates.txt"))?;
        let mut uses = BTreeMap::new();
        let mut order = Vec::new();
        for line in text.lines() {
            let line = line.split('#').next().unwrap_or("").trim();
            if line.is_empty() {
                continue;
            }
            let (head, used) = line.split_once(':').ok_or_else(|| invalid(format!("crates.txt: {line}")))?;
            let name = head.split_whitespace().next().unwrap_or("").to_string();
            order.push(name.clone());
            uses.insert(name, used.split_whitespace().map(str::to_string).collect::<BTreeSet<_>>());
        }
        let siblings: BTreeSet<String> = order.iter().cloned().collect();
        let crates = order.into_iter().map(|name| Crate {
            uses: uses.remove(&name).unwrap_or_default(),
            siblings: siblings.clone(),
            name,
        });
        Ok(Package {
            root: root.to_path_buf(),
            crates: crates.collect(),
        })
    }

    /// The folder of a crate's sources.
    pub fn sources(&self, member: &Crate) -> PathBuf {
        self.root.join("crates").join(&member.name).join("src")
    }

    /// The files of a crate's sources, in order.
    pub fn files(&self, member: &Crate) -> io::Result<Vec<PathBuf>> {
        let mut files = Vec::new();
        list(&self.sources(member), &mut files)?;
        Ok(files)
    }

    /// Whether a crate is a program.
    pub fn is_program(&self, member: &Crate) -> bool {
        self.sources(member).join("main.rt").exists()
    }

    /// The names of a crate and of all crates of the repository below it.
    pub fn closure(&self, name: &str, found: &mut BTreeSet<String>) {
        let Some(member) = self.crates.iter().find(|member| member.name == name) else {
            return;
        };
        if found.insert(name.to_string()) {
            for used in &member.uses {
                self.closure(used, found);
            }
        }
    }

    /// Writes the erased files of a crate as a module of `out`. Returns the files that it read.
    pub fn write(&self, member: &Crate, out: &Path) -> io::Result<Vec<PathBuf>> {
        let sources = self.sources(member);
        let files = self.files(member)?;
        for file in &files {
            let below = file.strip_prefix(&sources).map_err(|error| invalid(error.to_string()))?;
            let text = fs::read_to_string(file)?;
            let is_root = below == Path::new("lib.rt") || below == Path::new("main.rt");
            let erased = erase(&text, member, is_root).map_err(|error| self.failure(file, &error))?;
            let target = if is_root {
                out.join(format!("{}.rs", member.name))
            } else {
                out.join(&member.name).join(below).with_extension("rs")
            };
            write_changed(&target, &erased)?;
        }
        Ok(files)
    }

    fn failure(&self, file: &Path, error: &Failure) -> io::Error {
        let shown = file.strip_prefix(&self.root).unwrap_or(file);
        invalid(format!("{}:{error}", shown.display()))
    }
}

// Lists the sources below a folder, sorted.
fn list(folder: &Path, files: &mut Vec<PathBuf>) -> io::Result<()> {
    let mut entries = fs::read_dir(folder)?.collect::<io::Result<Vec<_>>>()?;
    entries.sort_by_key(|entry| entry.path());
    for entry in entries {
        let path = entry.path();
        if path.is_dir() {
            list(&path, files)?;
        } else if path.extension().is_some_and(|extension| extension == "rt") {
            files.push(path);
        }
    }
    Ok(())
}

// Leaves a file alone that has the text already, so that cargo doesn't see a change.
fn write_changed(path: &Path, text: &str) -> io::Result<()> {
    if fs::read_to_string(path).is_ok_and(|found| found == text) {
        return Ok(());
    }
    if let Some(folder) = path.parent() {
        fs::create_dir_all(folder)?;
    }
    fs::write(path, text)
}
