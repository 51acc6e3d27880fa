//! The prover, asked about copies of the crates: what it says of one with some of its files changed.

use crate::crates;
use crate::read;
use crate::root;
use crate::Crate;
use std::collections::BTreeMap;
use std::env;
use std::fs;
use std::io;
use std::path::Path;
use std::path::PathBuf;
use std::process;
use std::process::Command;
use std::process::Output;
use std::process::Stdio;

/// Texts of files, by their paths in a crate.
pub type Texts = BTreeMap<String, String>;

/// What a crate is proved from.
const PARTS: [&str; 3] = ["src", "specs", "proofs"];

/// What is made of a crate: what a check of it leaves for the next one, and what those above it read.
const WORK: &str = "out/incremental";
const BUILT: &str = "out/rlib";

/// Proves and builds a library where it stands, unless that is done; else, what was said.
pub fn build(library: &Crate) -> Result<(), String> {
    let output = rt(&library.folder, &["lib"]);
    match output.status.success() {
        true => Ok(()),
        false => Err(said(&output)),
    }
}

/// A copy of the repository's crates, outside the repository, where they may be changed. It goes with its owner.
pub struct Copy {
    top: PathBuf,
}

impl Copy {
    /// The copy of this number, of crates that are built.
    pub fn new(number: usize) -> Copy {
        let top = env::temp_dir().join(format!("jaskkovir-{}-{number}", process::id()));
        let copy = Copy { top };
        make(&copy.top.join(".git"));
        put(
            &copy.top.join("crates.txt"),
            &read(&root().join("crates.txt")),
        );
        for one in crates::all() {
            copy.lay(&one, &Texts::new());
        }
        copy
    }

    /// What the prover says of a crate with these texts: of these functions, or, where there are none, of all of it.
    pub fn asked(&self, library: &Crate, texts: &Texts, functions: &[&str]) -> String {
        self.lay(library, texts);
        tree(&library.folder, &self.folder(library), WORK);
        let mut words = vec!["check", "--jobs", "1"];
        words.extend(functions.iter().flat_map(|function| ["--only", function]));
        let mut output = rt(&self.folder(library), &words);
        if !has_judged(&output) {
            // Most likely the machine had no memory left.
            output = rt(&self.folder(library), &words);
        }
        self.lay(library, &Texts::new());
        said(&output)
    }

    fn folder(&self, library: &Crate) -> PathBuf {
        self.top.join("crates").join(&library.name)
    }

    /// The crate as it stands, but for these texts.
    fn lay(&self, library: &Crate, texts: &Texts) {
        let folder = self.folder(library);
        if folder.exists() {
            fs::remove_dir_all(&folder).unwrap_or_else(|error| failed(&folder, error));
        }
        make(&folder);
        for part in PARTS.iter().chain([&BUILT]) {
            tree(&library.folder, &folder, part);
        }
        for (path, text) in texts {
            put(&folder.join(path), text);
        }
    }
}

impl Drop for Copy {
    fn drop(&mut self) {
        // What is left behind is in the way of nobody.
        let _ = fs::remove_dir_all(&self.top);
    }
}

fn rt(folder: &Path, words: &[&str]) -> Output {
    let mut command = Command::new("rt");
    command.args(words).current_dir(folder).stdin(Stdio::null());
    command
        .output()
        .unwrap_or_else(|error| panic!("rt: {error}"))
}

/// Whether the prover came to an end by itself: proved, or not proved.
fn has_judged(output: &Output) -> bool {
    matches!(output.status.code(), Some(0 | 1))
}

fn said(output: &Output) -> String {
    let [own, other] = [&output.stdout, &output.stderr].map(|bytes| String::from_utf8_lossy(bytes));
    format!("{own}{other}")
}

/// Copies what stands at a path below a folder to the same path below another.
fn tree(from: &Path, to: &Path, path: &str) {
    let (one, other) = (from.join(path), to.join(path));
    if !one.is_dir() {
        return;
    }
    make(&other);
    for entry in fs::read_dir(&one).unwrap_or_else(|error| failed(&one, error)) {
        let name = entry
            .unwrap_or_else(|error| failed(&one, error))
            .file_name();
        let inside = format!("{path}/{}", name.to_str().expect("a name in UTF-8"));
        match one.join(&name) {
            below if below.is_dir() => tree(from, to, &inside),
            file => {
                let is_made =
                    path.starts_with(BUILT) || file.extension().is_some_and(|it| it == "oantt");
                copy(&file, &other.join(&name), is_made);
            }
        }
    }
}

/// What rt has made it replaces and never writes into, so such a file may have two names.
fn copy(from: &Path, to: &Path, is_made: bool) {
    if is_made && fs::hard_link(from, to).is_ok() {
        return;
    }
    fs::copy(from, to).unwrap_or_else(|error| failed(from, error));
}

fn make(folder: &Path) {
    fs::create_dir_all(folder).unwrap_or_else(|error| failed(folder, error));
}

fn put(path: &Path, text: &str) {
    fs::write(path, text).unwrap_or_else(|error| failed(path, error));
}

fn failed(path: &Path, error: io::Error) -> ! {
    panic!("{}: {error}", path.display())
}
