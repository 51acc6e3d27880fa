//! Files of the repository, named from its root.

use std::fs;
use std::path::Path;

pub fn read(name: &Path) -> Result<Vec<u8>, String> {
    fs::read(root().join(name)).map_err(|error| format!("{}: {error}", name.display()))
}

pub fn write(name: &Path, bytes: &[u8]) -> Result<(), String> {
    let path = root().join(name);
    let folder = path.parent().expect("the file stands in a folder");
    fs::create_dir_all(folder)
        .and_then(|()| fs::write(&path, bytes))
        .map_err(|error| format!("{}: {error}", name.display()))
}

/// Fails where the file holds something else.
pub fn check(name: &Path, bytes: &[u8]) -> Result<(), String> {
    if read(name)? == bytes {
        return Ok(());
    }
    let name = name.display();
    Err(format!("{name} differs from what the Rust gives now"))
}

fn root() -> &'static Path {
    Path::new(concat!(env!("CARGO_MANIFEST_DIR"), "/../.."))
}
