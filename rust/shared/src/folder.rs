//! Files of a folder.

use std::fs;
use std::io;
use std::path::Path;
use std::path::PathBuf;

/// Those with this extension, by name.
pub fn files(folder: &Path, extension: &str) -> Result<Vec<PathBuf>, String> {
    let told = |error: io::Error| told(folder, error.to_string());
    let mut paths = Vec::new();
    for entry in fs::read_dir(folder).map_err(told)? {
        let path = entry.map_err(told)?.path();
        if path.extension().is_some_and(|it| it == extension) {
            paths.push(path);
        }
    }
    paths.sort();
    Ok(paths)
}

/// A file's bytes.
pub fn read(path: &Path) -> Result<Vec<u8>, String> {
    fs::read(path).map_err(|error| told(path, error.to_string()))
}

pub(crate) fn told(path: &Path, why: String) -> String {
    format!("{}: {why}", path.display())
}
