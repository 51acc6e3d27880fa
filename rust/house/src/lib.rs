//! What stands in the repository, held to what is said of it. The crates of Rattle are read: their files,
//! functions, definitions and wrong programs. From them the command `documents` prints docs/CONTRACTS.md and
//! the lists in docs/ARCHITECTURE.md; after the prover has tried the wrong programs, the command `refused`
//! holds each to what was said of it; the tests hold the rest.

mod contracts;
mod crates;
mod definitions;
mod edits;
mod files;
mod functions;
mod lists;
mod prover;
mod refusals;
mod trials;
mod types;
mod wrap;

use std::fs;
use std::path::Path;
use std::path::PathBuf;

pub use contracts::cited;
pub use contracts::contracts;
pub use contracts::required;
pub use crates::all;
pub use crates::libraries;
pub use crates::Crate;
pub use definitions::broken_by;
pub use definitions::declares;
pub use definitions::imports;
pub use edits::Wrong;
pub use files::File;
pub use functions::functions_of;
pub use functions::Function;
pub use lists::architecture;
pub use lists::by_hand;
pub use prover::build;
pub use prover::Copy;
pub use refusals::is_refused;
pub use refusals::renamed;
pub use refusals::with;
pub use trials::tried;
pub use types::shared;
pub use types::types_of;
pub use types::Type;
pub use wrap::wrap;

/// The widest line of a document.
pub const WIDEST: usize = 120;

/// A document as it is printed, and what of the crates it can't be printed from.
pub struct Printed {
    pub text: String,
    pub faults: Vec<String>,
}

/// The repository's root.
pub fn root() -> PathBuf {
    Path::new(env!("CARGO_MANIFEST_DIR")).join("../..")
}

pub fn read(path: &Path) -> String {
    fs::read_to_string(path).unwrap_or_else(|error| panic!("{}: {error}", path.display()))
}
