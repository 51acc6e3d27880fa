//! Wrong programs, tried: the prover is asked of an edit as a whole, then of those of its wrong programs that this
//! showed nothing of, and at last of each of these alone.

use crate::edits;
use crate::files;
use crate::is_refused;
use crate::prover::Texts;
use crate::renamed;
use crate::root;
use crate::with;
use crate::Copy;
use crate::Crate;
use crate::Wrong;
use std::collections::BTreeMap;
use std::fs;

/// How many places of a function may get other names by one wrong program.
const MOST_NAMES: usize = 4;

/// Of the wrong programs of one edit, those that aren't refused for a fact of their own. What the prover said is left
/// in target/refused.
pub fn tried<'a>(copy: &Copy, library: &Crate, edit: &[&'a Wrong]) -> Vec<&'a Wrong> {
    let mut trials = Trials {
        copy,
        library,
        names: BTreeMap::new(),
        logs: 0,
    };
    trials.left(edit)
}

struct Trials<'a> {
    copy: &'a Copy,
    library: &'a Crate,
    /// By which name of a changed function's code its proof files have to call a place, for which other.
    names: BTreeMap<String, Vec<(String, String)>>,
    logs: usize,
}

impl Trials<'_> {
    /// Beside others a wrong program may show nothing, where it waits for one of them, and so may one by which a place
    /// of its function has another name, until the proof files have it too.
    fn left<'a>(&mut self, wrong: &[&'a Wrong]) -> Vec<&'a Wrong> {
        let log = self.log(wrong);
        let is_alone = wrong.len() == 1;
        let mut left = wrong.to_vec();
        left.retain(|one| !is_refused(&log, &self.library.name, one, is_alone));
        if left.is_empty() {
            left
        } else if self.take_names(&log, &left) || left.len() < wrong.len() {
            self.left(&left)
        } else if is_alone {
            left
        } else {
            left.iter().flat_map(|one| self.left(&[one])).collect()
        }
    }

    /// What the prover says with these wrong programs, which is left for a reader too.
    fn log(&mut self, wrong: &[&Wrong]) -> String {
        let mut texts = edits::applied(self.library, wrong.iter().copied());
        for function in wrong.iter().filter_map(|one| one.function.as_ref()) {
            if self.names.contains_key(function) {
                texts.extend(self.proofs(function));
            }
        }
        // A definition shows in laws and anywhere; a function by itself.
        let functions: Option<Vec<&str>> =
            wrong.iter().map(|one| one.function.as_deref()).collect();
        let functions = functions.unwrap_or_default();
        let log = self.copy.asked(self.library, &texts, &functions);
        self.logs += 1;
        let folder = root().join("target/refused").join(&self.library.name);
        let path = folder.join(format!("{}-{}.log", wrong[0].edit, self.logs));
        fs::create_dir_all(&folder)
            .and_then(|()| fs::write(&path, &log))
            .unwrap_or_else(|error| panic!("{}: {error}", path.display()));
        log
    }

    /// Whether one of these has a place with another name that wasn't known before.
    fn take_names(&mut self, log: &str, left: &[&Wrong]) -> bool {
        let mut is_new = false;
        for one in left {
            let Some(function) = &one.function else {
                continue;
            };
            let proofs: Vec<String> = self.proofs(function).into_values().collect();
            let known = self.names.entry(function.clone()).or_default();
            if known.len() == MOST_NAMES {
                continue;
            }
            if let Some(names) = renamed(log, one, &proofs, known) {
                known.push(names);
                is_new = true;
            }
        }
        is_new
    }

    /// The proof files of a function, with the names that its code has now.
    fn proofs(&self, function: &str) -> Texts {
        let folder = format!("proofs/{}", function.replace("::", "/"));
        let files = files::all_below(&self.library.folder, &folder).into_iter();
        let names = self.names.get(function);
        let told = |text: String| {
            let names = names.into_iter().flatten();
            names.fold(text, |text, (old, new)| with(&text, old, new))
        };
        files.map(|file| (file.path, told(file.text))).collect()
    }
}
