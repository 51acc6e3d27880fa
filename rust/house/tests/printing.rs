//! How crates are read, and how documents are printed from them.

use house::cited;
use house::contracts;
use house::functions_of;
use house::imports;
use house::libraries;
use house::required;
use house::shared;
use house::types_of;
use house::wrap;
use house::Crate;
use house::File;
use house::Function;
use house::WIDEST;

fn file(path: &str, text: &str) -> File {
    File {
        path: path.into(),
        text: text.into(),
    }
}

const SOURCE: &str = "\
// Places along one axis. Only the functions here
// cross over.
#![tactic(auto)]
ghost use Rattle.std.specs.Prelude.{◌≡◌, length};
ghost use Rattle.cells.specs.around.Around.{near_of, went};
ghost use Rattle.stack.specs.Numbers.{Held};

pub struct Pos(pub usize);

impl Pos {
    pub fn near(self, s: &mut [u64]) -> Pos
        requires { Held s.old × (length s.old ≡ 20) }
        ensures value { (result.went ≤ 16) × went result
            (record { a = 1 }) ≡ near_of self }
        ensures s_after { s.new ≡ s.old }
    {
        let at = Pos { at: 1 };
        at
    }
}

fn show(n: u8) {
    number(n);
}

pub fn tell(rt: &impl Print, n: u8) -> io::Result<()> {
    number(rt, n)
}
";

/// Types with facts, in themselves or in what they hold, and functions that are handed them.
const FACTS: &str = "\
// Lines, and what is read from them.
ghost use Rattle.std.specs.Prelude.{◌≡◌, ◌≤◌, true, length};
ghost use Rattle.cells.specs.Cell.{is_ref};

pub struct Bare(pub [u8; 7]); // of a Line

// A Line is long.
#[derive(Clone, Copy)]
pub struct Line<'a> {
    pub bytes: &'a [u8],
    pub ghost long: { 168
        ≤ length bytes.now },
    ghost asked: { is_ref bytes.now ≡ true },
}

pub(crate) enum Held<'a> {
    None,
    Of(Line<'a>),
}

pub type Other<'a> = Held<'a>;

impl<'a> Line<'a> {
    pub fn of(bare: Bare) -> Option<Line<'a>>
        ensures { result ≡ None }
    {
        None
    }

    pub fn read(&self, bare: &Bare) -> u8
        ensures { result ≡ 0 }
    {
        0
    }
}

pub fn read(n: u8, other: (&Other<'_>, u8)) -> u8
    requires { n ≤ 7 }
    ensures { result ≡ 0 }
{
    0
}
";

#[test]
fn a_file_says_its_first_sentence() {
    let source = file("src/a/pos.rt", SOURCE);
    assert_eq!(source.says().as_deref(), Some("Places along one axis."));
    assert_eq!(source.module(), "a::pos");
    assert_eq!(source.place(), "a");
    let steps = file(
        "specs/Code/Last.antt",
        "-- Steps a, a + 1, .. up to e - 1,\n-- and the last.\nuse x\n",
    );
    assert_eq!(
        steps.says().as_deref(),
        Some("Steps a, a + 1, .. up to e - 1, and the last.")
    );
    assert_eq!(steps.place(), "");
    assert_eq!(file("src/bare.rt", "use x;\n").says(), None);
}

#[test]
fn a_file_of_names_is_a_list() {
    assert!(file("specs/Lib.antt", "-- What is said.\npub mod A\npub mod B\n").is_list());
    assert!(!file("specs/A.antt", "-- A.\npub a : ℕ\n").is_list());
}

#[test]
fn a_function_has_its_clauses_and_its_body() {
    let all = functions_of(&file("src/a/pos.rt", SOURCE));
    let [near, show, tell] = &all[..] else {
        panic!("three functions");
    };
    assert_eq!((&*near.path, near.name()), ("a::pos::Pos::near", "near"));
    assert!(near.public && near.promises() && !near.does_io());
    assert_eq!(near.result, "Pos");
    assert_eq!(near.requires, ["Held s.old × (length s.old ≡ 20)"]);
    assert_eq!(
        near.ensures,
        [
            "(result.went ≤ 16) × went result (record { a = 1 }) ≡ near_of self",
            "s.new ≡ s.old"
        ]
    );
    assert_eq!(near.lines(), 4);
    assert_eq!((near.first, near.last), (10, 18));
    assert!(!show.public && !show.answers() && !show.promises());
    assert!(tell.answers() && tell.does_io() && !tell.promises());
}

#[test]
fn a_contract_cites_its_definitions_and_its_plain_facts() {
    let imports = imports(SOURCE);
    let near = &functions_of(&file("src/a/pos.rt", SOURCE))[0];
    assert_eq!(
        cited(&near.ensures, &imports),
        "`went`, `near_of` (cells/around/Around); `result.went ≤ 16`; `s.new ≡ s.old`"
    );
    assert_eq!(
        cited(&near.requires, &imports),
        "`Held` (stack/Numbers); `length s.old ≡ 20`"
    );
    assert_eq!(cited(&[], &imports), "nothing");
}

#[test]
fn facts_of_a_type_are_required() {
    let source = file("src/line.rt", FACTS);
    let types = types_of(&source);
    let names: Vec<&str> = types.iter().map(|one| &*one.name).collect();
    assert_eq!(names, ["Bare", "Line", "Held", "Other"]);
    let functions = functions_of(&source);
    assert_eq!(functions[1].takes, ["Line", "bare", "Bare"]);
    let required: Vec<String> = functions
        .iter()
        .map(|function| required(function, &imports(FACTS), &types))
        .collect();
    let facts = "of its `Line` `is_ref` (cells/Cell); `168 ≤ length bytes.now`";
    assert_eq!(required, ["nothing", facts, &*format!("`n ≤ 7`; {facts}")]);
}

/// Names that types without facts share do no harm.
#[test]
fn a_name_that_hides_facts_is_told() {
    let mut types = types_of(&file("src/line.rt", FACTS));
    types.extend(types_of(&file("src/a.rt", "struct Bare(u8);\n")));
    assert!(shared(&types).is_empty());
    types.extend(types_of(&file("src/b.rt", "enum Held {\n    One,\n}\n")));
    types.extend(types_of(&file("src/c.rt", "pub struct Line;\n")));
    assert_eq!(shared(&types), ["Held", "Line"]);
}

/// The types of a file that have facts, by the lines alone.
fn with_ghosts(file: &File) -> Vec<String> {
    let mut last = "";
    let mut names: Vec<String> = Vec::new();
    for line in file.text.lines() {
        if let Some((_, rest)) = line.split_once("struct ") {
            last = rest.split([' ', '<']).next().unwrap_or_default();
        }
        if line.contains("ghost ") && line.contains(": {") {
            names.push(last.into());
        }
    }
    names
}

/// What the document has of a function of a file, in one line.
fn told(document: &str, library: &Crate, file: &File, function: &Function) -> String {
    let module = format!("{}::{}", library.name, file.module());
    let heading = format!("\n### {}\n", module.trim_end_matches(':'));
    let path = format!("{}::{}", library.name, function.path);
    let path = path.strip_prefix(&module).expect("a path of the module");
    let mark = format!("- **`{}`**", path.trim_start_matches(':'));
    let (_, functions) = document.split_once(&heading).expect("the module");
    let (_, rest) = functions.split_once(&mark).expect("the function");
    let own = rest.lines().map(str::trim);
    let own: Vec<&str> = own.take_while(|line| !line.starts_with("- ")).collect();
    own.join(" ")
}

#[test]
fn a_function_that_is_handed_facts_requires_them() {
    let document = contracts().text;
    let libraries = libraries();
    let files = |library: &Crate| library.files("src");
    let all: Vec<String> = libraries
        .iter()
        .flat_map(files)
        .flat_map(|file| with_ghosts(&file))
        .collect();
    let mut handed = 0;
    for library in &libraries {
        for file in files(library) {
            for function in functions_of(&file).iter().filter(|one| one.public) {
                for name in all.iter().filter(|name| function.takes.contains(name)) {
                    let told = told(&document, library, &file, function);
                    let is_told = told.contains(&format!("of its `{name}` `"));
                    assert!(is_told && !told.contains("Requires nothing"), "{told}");
                    handed += 1;
                }
            }
        }
    }
    assert!(handed > 7, "more than {handed} types with facts are handed");
}

#[test]
fn lines_are_torn_between_words() {
    let text = format!(
        "{} `code that stays in one piece` end",
        "word ".repeat(20).trim_end()
    );
    let printed = wrap("  - ", &text);
    assert!(printed.lines().all(|line| line.chars().count() <= WIDEST));
    assert_eq!(
        printed.lines().nth(1),
        Some("    `code that stays in one piece` end")
    );
    let long = wrap("- ", &format!("`{}`", "≤ ".repeat(100)));
    assert!(long.lines().all(|line| line.chars().count() <= WIDEST));
}
