//! Capture files: made from their parts, and read with the output expected of them.

use crate::folder;
use std::path::Path;

/// A kind and its body.
pub type Part = (u8, Vec<u8>);

/// The bytes of an entry.
pub const ENTRY_LEN: usize = 9;

/// A file with these parts, in this order.
pub fn file(parts: &[Part]) -> Vec<u8> {
    let mut file = vec![parts.len() as u8];
    let mut offset = 1 + ENTRY_LEN * parts.len();
    for (kind, body) in parts {
        file.push(*kind);
        for number in [offset, body.len()] {
            file.extend((number as u32).to_le_bytes());
        }
        offset += body.len();
    }
    file.extend(parts.iter().flat_map(|(_, body)| body));
    file
}

/// The parts of a well-formed file.
pub fn parts(file: &[u8]) -> Vec<Part> {
    let (entries, _) = file[1..].as_chunks::<ENTRY_LEN>();
    let part = |&[kind, o0, o1, o2, o3, l0, l1, l2, l3]: &[u8; ENTRY_LEN]| {
        let [offset, length] = [[o0, o1, o2, o3], [l0, l1, l2, l3]].map(u32::from_le_bytes);
        let body = &file[offset as usize..][..length as usize];
        (kind, body.to_vec())
    };
    entries.iter().take(file[0].into()).map(part).collect()
}

/// The output of document 01's worked example.
pub const WORKED_OUTPUT: &str = "job 0 answer 0 steps 16\np 2 2 0 64 1\n";

/// Its parts: the frame, one load, and field 0.
pub fn worked() -> [Part; 3] {
    let mut description = vec![0; 67];
    // Width and height are 64; 3 bits, hint 2.
    description[..7].copy_from_slice(&[64, 0, 64, 0, 0, 3, 2]);
    description[7..14].fill(1);
    description[63..].fill(1);
    let load = vec![0, 0, 0, 0, 8, 0, 0, 0, 8, 0, 0, 0, 1];
    // 8 rows of 16 cells.
    let mut cells = [[0; 5]; 8 * 16];
    cells[2 * 16 + 3] = [0, 0, 64, 0, 1];
    [(1, description), (2, load), (16, cells.concat())]
}

/// A real capture, with what a traced decoder left as the program's output.
pub struct Captured {
    pub name: String,
    pub file: Vec<u8>,
    pub output: Vec<u8>,
}

/// The captures of a folder, by name: `NAME.cap` with `NAME.out` beside it.
pub fn read(folder: &Path) -> Result<Vec<Captured>, String> {
    let paths = folder::files(folder, "cap")?;
    if paths.is_empty() {
        return Err(folder::told(folder, "no captures".to_string()));
    }
    let captured = |path: &Path| {
        let name = path.file_stem().expect("a capture has its name");
        Ok(Captured {
            name: name.to_string_lossy().into_owned(),
            file: folder::read(path)?,
            output: folder::read(&path.with_extension("out"))?,
        })
    };
    paths.iter().map(|path| captured(path)).collect()
}

#[cfg(test)]
mod tests {
    use super::*;

    #[test]
    fn bodies_follow_the_entries() {
        let made = [(1, vec![7, 8]), (16, vec![]), (2, vec![9])];
        let file = file(&made);
        assert_eq!(parts(&file), made);
        let entries = [
            [1, 28, 0, 0, 0, 2, 0, 0, 0],
            [16, 30, 0, 0, 0, 0, 0, 0, 0],
            [2, 30, 0, 0, 0, 1, 0, 0, 0],
        ];
        assert_eq!(file, [&[3], entries.as_flattened(), &[7, 8, 9]].concat());
    }
}
