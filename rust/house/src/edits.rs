//! Wrong programs: edits that the prover has to refuse.
//!
//! An edit is tried once, and may hold several wrong programs, each of another function: `wrong: NAME: WORDS`
//! comes before such a one, with words that say what it does wrong. `for:` names further public functions that
//! it stands for: those whose work is done by the one that it changes.

use crate::definitions;
use crate::functions_of;
use crate::prover::Texts;
use crate::Crate;
use crate::File;
use crate::Function;

pub struct Wrong {
    pub name: String,
    /// What it does wrong.
    pub words: String,
    /// The edit that holds it.
    pub edit: String,
    /// The file that it changes.
    pub file: String,
    /// The text that it takes away there, and what it puts for it.
    pub old: String,
    pub new: String,
    /// How often its old text stands there, once those before it in the edit are applied.
    pub places: usize,
    /// It changes that text.
    pub changes: bool,
    /// The function that it changes, by its path in the crate; none for a definition.
    pub function: Option<String>,
    /// The definition that it changes.
    pub definition: Option<String>,
    /// The other functions that it stands for, as its edit names them.
    pub stands_for: Vec<String>,
}

pub fn of(library: &Crate, edit: &File) -> Vec<Wrong> {
    let stem = edit
        .path
        .trim_start_matches("must-fail/")
        .trim_end_matches(".edit");
    let mut all: Vec<Wrong> = Vec::new();
    let mut texts = Texts::new();
    let (mut file, mut old) = (String::new(), String::new());
    let (mut name, mut words, mut stands_for) = (stem.to_string(), String::new(), Vec::new());
    for line in edit.text.lines() {
        if let Some(rest) = line.strip_prefix("wrong: ") {
            let (own, said) = rest.split_once(": ").unwrap_or((rest, ""));
            (name, words) = (own.into(), said.into());
        } else if let Some(rest) = line.strip_prefix("for: ") {
            stands_for = rest.split(", ").map(String::from).collect();
        } else if let Some(rest) = line.strip_prefix("file: ") {
            file = rest.into();
        } else if let Some(rest) = line.strip_prefix("old: ") {
            old = rest.into();
        } else if let Some(rest) = line.strip_prefix("new:") {
            let new = rest.strip_prefix(' ').unwrap_or(rest);
            let text = texts
                .entry(file.clone())
                .or_insert_with(|| crate::read(&library.folder.join(&file)));
            let place = Place::of(&file, text, &old);
            *text = text.replacen(&old, new, 1);
            all.push(Wrong {
                name: name.clone(),
                words: words.clone(),
                edit: stem.into(),
                file: file.clone(),
                old: old.clone(),
                new: new.into(),
                places: place.times,
                changes: old != new,
                function: place.function,
                definition: place.definition,
                stands_for: std::mem::take(&mut stands_for),
            });
        }
    }
    all
}

/// The files that wrong programs change, with all of these applied.
pub fn applied<'a>(library: &Crate, wrong: impl IntoIterator<Item = &'a Wrong>) -> Texts {
    let mut texts = Texts::new();
    for one in wrong {
        let text = texts
            .entry(one.file.clone())
            .or_insert_with(|| crate::read(&library.folder.join(&one.file)));
        *text = text.replacen(&one.old, &one.new, 1);
    }
    texts
}

/// Where a text stands in a file.
struct Place {
    times: usize,
    function: Option<String>,
    definition: Option<String>,
}

impl Place {
    fn of(path: &str, text: &str, old: &str) -> Place {
        let file = File {
            text: text.into(),
            path: path.into(),
        };
        let line = file
            .text
            .find(old)
            .map(|at| file.text[..at].matches('\n').count());
        let holds = |function: &Function| {
            line.is_some_and(|line| (function.first..=function.last).contains(&line))
        };
        let function = functions_of(&file).into_iter().find(holds);
        Place {
            times: file.text.matches(old).count(),
            function: function.map(|function| function.path),
            definition: line
                .filter(|_| path.ends_with(".antt"))
                .and_then(|line| definitions::at_line(&file, line)),
        }
    }
}
