//! docs/CONTRACTS.md: each public function with what it promises, what it requires, and the wrong programs that
//! its contract shuts out.

use crate::crates;
use crate::definitions::heads;
use crate::definitions::imports;
use crate::definitions::Import;
use crate::functions_of;
use crate::types::shared;
use crate::types::types_of;
use crate::types::with_facts;
use crate::wrap::wrap;
use crate::Crate;
use crate::File;
use crate::Function;
use crate::Printed;
use crate::Type;
use crate::Wrong;

const HEAD: &str = "\
# Contracts

Printed from the crates by `cargo run -p house` (in `rust/`), and held to them by the gate: to change a line here,
change the file that it is printed from.

Each public function, crate by crate and module by module:

- what it promises: the definitions that its `ensures` cites, with the file that each stands in (cells/Block is
  crates/cells/specs/Block.antt), and those of its facts that cite none;
- what it requires of its caller, in the same way; behind `of its` and a type, the facts that stand in the type of what
  it is handed, or of what that holds: whoever makes such a value has shown them;
- the wrong programs that its contract shuts out, by name and in words. The gate applies each to a copy of its crate,
  with others in one edit (`must-fail/`), and the prover has to refuse it because a fact fails. Most change the
  function itself; `in` names another that does its work, private or in another crate, where that one is changed:
  then the program as a whole is wrong, and it is refused there.

A function that requires nothing takes any numbers and any buffers; so do all exported ones that take lent parts
(`jaskkovir`). Most others are inner ones, public because another module or crate calls them.
";

/// The document.
pub fn contracts() -> Printed {
    let book = Book::read();
    let mut faults = book.faults();
    let mut text = HEAD.to_string();
    for (library, wrong) in &book.libraries {
        text.push_str(&book.told(library, wrong, &mut faults));
    }
    Printed { text, faults }
}

struct Book {
    /// Each with its wrong programs.
    libraries: Vec<(Crate, Vec<Wrong>)>,
    /// Crate and path of every public function.
    public: Vec<(String, String)>,
    /// Those of all libraries, private ones too: a public one may hold them.
    types: Vec<Type>,
}

impl Book {
    fn read() -> Book {
        let mut libraries = Vec::new();
        let mut public = Vec::new();
        let mut types = Vec::new();
        for library in crates::libraries() {
            types.extend(library.files("src").iter().flat_map(types_of));
            let wrong = library.wrong();
            for function in library
                .functions()
                .into_iter()
                .filter(|function| function.public)
            {
                public.push((library.name.clone(), function.path));
            }
            libraries.push((library, wrong));
        }
        Book {
            libraries,
            public,
            types,
        }
    }

    /// The function that a wrong program of a crate stands for by this name: one of its own, or behind the name of
    /// another crate.
    fn meant(&self, library: &str, path: &str) -> Option<(String, String)> {
        let own = (library.to_string(), path.to_string());
        let other = path
            .split_once("::")
            .map(|(name, rest)| (name.to_string(), rest.to_string()));
        [Some(own), other]
            .into_iter()
            .flatten()
            .find(|function| self.public.contains(function))
    }

    /// Names behind `for:` that no public function has, and of types whose facts can't be told apart.
    fn faults(&self) -> Vec<String> {
        let told = |name| format!("{name}: facts stand behind one of several types of this name");
        let mut faults: Vec<String> = shared(&self.types).into_iter().map(told).collect();
        for (library, wrong) in &self.libraries {
            for one in wrong {
                for path in one
                    .stands_for
                    .iter()
                    .filter(|path| self.meant(&library.name, path).is_none())
                {
                    faults.push(format!(
                        "{}: {} is for {path}, which is nowhere",
                        library.name, one.name
                    ));
                }
            }
        }
        faults
    }

    fn told(&self, library: &Crate, wrong: &[Wrong], faults: &mut Vec<String>) -> String {
        let says = library.head("src/lib.rt").unwrap_or_default();
        let mut text = format!("\n## {}\n\n{}", library.name, wrap("", &says));
        for file in library.files("src") {
            let functions = functions_of(&file);
            let public: Vec<&Function> = functions
                .iter()
                .filter(|function| function.public)
                .collect();
            if public.is_empty() {
                continue;
            }
            text.push_str(&format!("\n### {}\n\n", heading(library, &file)));
            let imports = imports(&file.text);
            for function in public {
                text.push_str(&self.function(library, &file, &imports, function, faults));
            }
        }
        let definitions: Vec<&Wrong> = wrong.iter().filter(|one| one.function.is_none()).collect();
        if !definitions.is_empty() {
            text.push_str(
                "\nWrong definitions, refused where a law of them or a function's proof fails:\n\n",
            );
        }
        for one in definitions {
            let name = one.definition.as_deref().unwrap_or_default();
            text.push_str(&wrap(
                "- ",
                &format!("{}: {} (`{name}` of {})", one.name, one.words, one.file),
            ));
        }
        text
    }

    fn function(
        &self,
        library: &Crate,
        file: &File,
        imports: &[Import],
        function: &Function,
        faults: &mut Vec<String>,
    ) -> String {
        let path = function
            .path
            .strip_prefix(&format!("{}::", file.module()))
            .unwrap_or(&function.path);
        if !function.promises() && (!function.answers() || function.does_io()) {
            return format!("- **`{path}`** prints: no contract can say what.\n");
        }
        if function.ensures.is_empty() {
            faults.push(format!(
                "{}: {} promises nothing",
                library.name, function.path
            ));
        }
        let promised = cited(&function.ensures, imports);
        let required = required(function, imports, &self.types);
        let mut text = wrap(
            "- ",
            &format!("**`{path}`**: {promised}. Requires {required}."),
        );
        let wrong = self.wrong(library, function);
        if wrong.len() < 2 && !function.does_io() {
            faults.push(format!(
                "{}: {} has {} wrong programs",
                library.name,
                function.path,
                wrong.len()
            ));
        }
        if wrong.is_empty() && function.does_io() {
            text.push_str("  - none: no contract can say what is read or printed\n");
        }
        wrong
            .iter()
            .for_each(|one| text.push_str(&wrap("  - ", one)));
        text
    }

    /// The wrong programs of a function: those that change it, and those that stand for it, also by what it hands on
    /// to.
    fn wrong(&self, library: &Crate, function: &Function) -> Vec<String> {
        let mut own = vec![(library.name.clone(), function.path.clone())];
        own.extend(self.handed_on(function));
        let mut told = Vec::new();
        for (other, wrong) in &self.libraries {
            for one in wrong {
                let changes = one
                    .function
                    .as_ref()
                    .map(|path| (other.name.clone(), path.clone()));
                let mut stands = one
                    .stands_for
                    .iter()
                    .filter_map(|path| self.meant(&other.name, path));
                let said = format!("{}: {}", one.name, one.words);
                if changes.as_ref() == own.first() {
                    told.push(said);
                } else if changes.is_some_and(|path| own.contains(&path))
                    || stands.any(|path| own.contains(&path))
                {
                    let place = one
                        .function
                        .as_deref()
                        .or(one.definition.as_deref())
                        .unwrap_or(&one.file);
                    let before = if other.name == library.name {
                        String::new()
                    } else {
                        format!("{}::", other.name)
                    };
                    told.push(format!("{said}, in `{before}{place}`"));
                }
            }
        }
        told
    }

    /// The function of another crate that does all the work of one, if its body is nothing but a call of it.
    fn handed_on(&self, function: &Function) -> Option<(String, String)> {
        let (called, rest) = function
            .body
            .trim_start_matches('{')
            .trim()
            .split_once('(')?;
        let inside = rest
            .trim_end()
            .strip_suffix('}')?
            .trim_end()
            .strip_suffix(')')?;
        let (name, path) = called.split_once("::")?;
        let called = (name.to_string(), path.to_string());
        (!inside.contains(';') && self.public.contains(&called)).then_some(called)
    }
}

/// The module's path, behind the crate's.
fn heading(library: &Crate, file: &File) -> String {
    match file.module() {
        module if module.is_empty() => library.name.clone(),
        module => format!("{}::{module}", library.name),
    }
}

/// What clauses cite, file by file, and those of their facts that cite nothing.
pub fn cited(clauses: &[String], imports: &[Import]) -> String {
    let mut by_file: Vec<(&str, Vec<&str>)> = Vec::new();
    let mut plain = Vec::new();
    for fact in clauses.iter().flat_map(|clause| facts(clause)) {
        let own: Vec<&Import> = heads(&fact)
            .filter_map(|name| imports.iter().find(|import| import.name == name))
            .collect();
        if own.is_empty() {
            plain.push(format!("`{fact}`"));
        }
        for import in own {
            let at = by_file
                .iter()
                .position(|(file, _)| *file == import.file)
                .unwrap_or_else(|| {
                    by_file.push((&import.file, Vec::new()));
                    by_file.len() - 1
                });
            if !by_file[at].1.contains(&&*import.name) {
                by_file[at].1.push(&import.name);
            }
        }
    }
    let told = |(file, own): &(&str, Vec<&str>)| {
        let own: Vec<String> = own.iter().map(|name| format!("`{name}`")).collect();
        format!("{} ({file})", own.join(", "))
    };
    let mut all: Vec<String> = by_file.iter().map(told).collect();
    all.extend(plain);
    if all.is_empty() {
        return "nothing".into();
    }
    all.join("; ")
}

/// What a function's clauses require, and behind it the facts of the types that it is handed.
pub fn required(function: &Function, imports: &[Import], types: &[Type]) -> String {
    let of_types = with_facts(types, &function.takes);
    let mut all = Vec::new();
    if of_types.is_empty() || !function.requires.is_empty() {
        all.push(cited(&function.requires, imports));
    }
    all.extend(
        of_types
            .iter()
            .map(|(name, facts)| format!("of its `{name}` {facts}")),
    );
    all.join("; ")
}

/// The facts of a clause: what stands in it, taken apart at each `×` that stands in no brackets.
fn facts(clause: &str) -> Vec<String> {
    let mut facts = vec![String::new()];
    let mut depth = 0;
    for c in clause.chars() {
        match c {
            '(' | '{' => depth += 1,
            ')' | '}' => depth -= 1,
            _ => {}
        }
        if c == '×' && depth == 0 {
            facts.push(String::new());
        } else {
            facts.last_mut().expect("a fact").push(c);
        }
    }
    facts
        .iter()
        .map(|fact| bare(fact.trim()).to_string())
        .collect()
}

/// Without the brackets around the whole.
fn bare(fact: &str) -> &str {
    let Some(inside) = fact
        .strip_prefix('(')
        .and_then(|fact| fact.strip_suffix(')'))
    else {
        return fact;
    };
    let mut depth = 0;
    let is_one = inside.chars().all(|c| {
        depth += i32::from(c == '(') - i32::from(c == ')');
        depth >= 0
    });
    if is_one {
        inside
    } else {
        fact
    }
}
