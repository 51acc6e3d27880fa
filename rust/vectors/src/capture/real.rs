//! Real captures, with what a traced decoder left.

use oracle::replay::replay;
use oracle::replay::text;
use shared::captures;
use shared::captures::Captured;
use std::path::Path;

/// The sample that stands in the repository.
const SAMPLE: &str = concat!(env!("CARGO_MANIFEST_DIR"), "/../../real/captures");

/// The longest of them that the list has.
const MOST: usize = 16 * 1024;

/// The sample's files that aren't too long. Fails where an output isn't the traced decoder's.
pub fn small() -> Result<Vec<Vec<u8>>, String> {
    let mut captures = captures::read(Path::new(SAMPLE))?;
    captures.retain(|captured| captured.file.len() <= MOST);
    match captures.iter().find(|captured| !is_as_traced(captured)) {
        Some(other) => Err(format!("{} isn't as traced", other.name)),
        None => Ok(captures.into_iter().map(|it| it.file).collect()),
    }
}

/// Replays all captures of a folder. Fails where an output is another than the traced decoder's.
pub fn check(folder: &Path) -> Result<(), String> {
    let captures = captures::read(folder)?;
    let differing: Vec<&str> = captures
        .iter()
        .filter(|captured| !is_as_traced(captured))
        .map(|captured| captured.name.as_str())
        .collect();
    if differing.is_empty() {
        println!("{} captures, all as traced", captures.len());
        return Ok(());
    }
    Err(format!("not as traced: {}", differing.join(", ")))
}

fn is_as_traced(captured: &Captured) -> bool {
    text(&replay(&captured.file)).as_bytes() == captured.output
}

#[cfg(test)]
mod tests {
    use super::*;

    #[test]
    fn the_sample_is_as_traced() {
        check(Path::new(SAMPLE)).unwrap();
    }

    #[test]
    fn each_byte_of_an_output_counts() {
        for mut captured in captures::read(Path::new(SAMPLE)).unwrap() {
            let last = captured.output.pop();
            assert!(!is_as_traced(&captured));
            captured.output.extend(last);
            captured.output[4] ^= 1;
            assert!(!is_as_traced(&captured));
        }
    }
}
