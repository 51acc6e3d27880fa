//! Files of a crate, and what each says of itself in its first comment.

use crate::read;
use std::fs;
use std::path::Path;

pub struct File {
    /// From the crate's folder.
    pub path: String,
    pub text: String,
}

impl File {
    /// The names of its folders below the first, and its own, without its ending.
    fn names(&self) -> Vec<&str> {
        let path = self
            .path
            .rsplit_once('.')
            .map_or(&*self.path, |(stem, _)| stem);
        path.split('/').skip(1).collect()
    }

    /// The module, as a path in code: `a::b` for src/a/b.rt, nothing for src/lib.rt.
    pub fn module(&self) -> String {
        match self.names().join("::") {
            top if top == "lib" => String::new(),
            module => module,
        }
    }

    /// The module that it belongs to: that of its folder. Definitions that follow the code stand in a folder of
    /// their own beside the others.
    pub fn place(&self) -> String {
        let names = self.names();
        let folders = &names[..names.len() - 1];
        let own: Vec<&str> = folders
            .iter()
            .copied()
            .filter(|name| *name != "Code")
            .collect();
        own.join("::")
    }

    /// It only lists the files of a folder.
    pub fn is_list(&self) -> bool {
        let is_list = |line: &str| {
            let line = line.trim();
            line.is_empty()
                || line.starts_with("//")
                || line.starts_with("--")
                || line.starts_with("pub mod ")
        };
        self.text.lines().all(is_list)
    }

    pub fn says(&self) -> Option<String> {
        says(&self.text)
    }
}

/// The first sentence of the comment that a file begins with.
pub fn says(text: &str) -> Option<String> {
    let comment = |line: &str| {
        let rest = line
            .strip_prefix("//")
            .or_else(|| line.strip_prefix("--"))?;
        Some(rest.trim().to_string())
    };
    let comment: Vec<String> = text.lines().map_while(comment).collect();
    let comment = comment.join(" ");
    (!comment.is_empty()).then(|| sentence(&comment).to_string())
}

/// As far as a full stop behind a word; two of them stand for what is left out.
fn sentence(text: &str) -> &str {
    let is_end = |at: &usize| text[..*at].ends_with(|last: char| last != '.' && last != ' ');
    text.match_indices(". ")
        .map(|(at, _)| at)
        .find(is_end)
        .map_or(text, |at| &text[..=at])
}

/// What proves a single function has one of these names, and stands in that function's folder.
const OF_A_FUNCTION: [&str; 3] = ["Answers.antt", "Invariants.antt", "Proof.antt"];

/// Whether the file at a path in a crate proves a single function. One of that name right in proofs/ has laws.
pub fn is_of_a_function(path: &str) -> bool {
    let (folder, name) = path.rsplit_once('/').unwrap_or_default();
    OF_A_FUNCTION.contains(&name) && !folder.ends_with("proofs")
}

/// Without those that prove a single function.
pub fn below(root: &Path, folder: &str) -> Vec<File> {
    let mut files = all_below(root, folder);
    files.retain(|file| !is_of_a_function(&file.path));
    files
}

/// In order of their paths; none where there is no such folder.
pub fn all_below(root: &Path, folder: &str) -> Vec<File> {
    let mut names: Vec<String> = fs::read_dir(root.join(folder))
        .into_iter()
        .flatten()
        .map(|entry| entry.expect("a folder's entry").file_name())
        .map(|name| name.into_string().expect("a name in UTF-8"))
        .collect();
    names.sort();
    let files = |name: &String| match format!("{folder}/{name}") {
        path if root.join(&path).is_dir() => all_below(root, &path),
        path => vec![File {
            text: read(&root.join(&path)),
            path,
        }],
    };
    names.iter().flat_map(files).collect()
}
