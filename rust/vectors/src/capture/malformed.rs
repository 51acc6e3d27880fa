//! Each rule of a capture file broken.

use crate::capture::made::Made;
use shared::captures::file;
use shared::captures::Part;
use shared::captures::ENTRY_LEN;

/// The entries of the file that each case starts from.
const ENTRIES: usize = 3;

pub fn files() -> Vec<Vec<u8>> {
    [counts(), places(), kinds(), lengths()].concat()
}

fn small() -> Vec<u8> {
    Made::small().file()
}

fn changed(change: impl FnOnce(&mut Vec<Part>)) -> Vec<u8> {
    let mut parts = Made::small().parts();
    change(&mut parts);
    file(&parts)
}

/// Another number of entries than there are, none, or more than 32.
fn counts() -> Vec<Vec<u8>> {
    let mut files = vec![vec![], vec![0], vec![1], vec![255]];
    for count in [0, 2, 4, 33] {
        let mut file = small();
        file[0] = count;
        files.push(file);
    }
    for count in [32, 33] {
        files.push(changed(|parts| parts.resize(count, (17, vec![]))));
    }
    // The entries are cut, and there is nothing behind them.
    for len in [ENTRY_LEN * ENTRIES, 1 + ENTRY_LEN * ENTRIES] {
        files.push(small()[..len].to_vec());
    }
    files
}

/// Replaces the offset and the length of an entry by what is made of them.
fn moved(file: &mut [u8], entry: usize, change: impl FnOnce([u32; 2]) -> [u32; 2]) {
    let (numbers, _) = file[2 + ENTRY_LEN * entry..].as_chunks_mut::<4>();
    let [offset, length] = [numbers[0], numbers[1]].map(u32::from_le_bytes);
    let after = change([offset, length]).map(u32::to_le_bytes);
    numbers[..2].copy_from_slice(&after);
}

/// Bodies that aren't in entry order, or not without gaps from the entries to the end.
fn places() -> Vec<Vec<u8>> {
    let behind = |count: usize| [small(), vec![0; count]].concat();
    let cut = |count: usize| small()[..small().len() - count].to_vec();
    let mut files = vec![behind(1), behind(5), cut(1), cut(5)];
    let changes: [fn([u32; 2]) -> [u32; 2]; 7] = [
        |[offset, length]| [offset + 1, length],
        |[offset, length]| [offset - 1, length],
        |[offset, length]| [offset, length + 5],
        |[offset, length]| [offset, length - 5],
        // A cell less before it, or a cell more.
        |[offset, length]| [offset + 5, length - 5],
        |[offset, length]| [offset - 5, length + 5],
        |[offset, _]| [offset, u32::MAX],
    ];
    for change in changes {
        let mut file = small();
        moved(&mut file, ENTRIES - 1, change);
        files.push(file);
    }
    files.extend([gap_behind(0), gap_behind(1), swapped(), wrapped()]);
    files
}

/// A byte between the entries and the bodies, or between two bodies.
fn gap_behind(entries: usize) -> Vec<u8> {
    let before: usize = Made::small().parts()[..entries]
        .iter()
        .map(|(_, body)| body.len())
        .sum();
    let mut file = small();
    file.insert(1 + ENTRY_LEN * ENTRIES + before, 0);
    for entry in entries..ENTRIES {
        moved(&mut file, entry, |[offset, length]| [offset + 1, length]);
    }
    file
}

/// The last two bodies change places, and their offsets with them.
fn swapped() -> Vec<u8> {
    let mut parts = Made::small().parts();
    parts.swap(1, 2);
    let mut file = file(&parts);
    let (first, second) = file[1 + ENTRY_LEN..].split_at_mut(ENTRY_LEN);
    first.swap_with_slice(&mut second[..ENTRY_LEN]);
    file
}

/// In numbers of 32 bits the second field would start a byte before the first, and end with the
/// file.
fn wrapped() -> Vec<u8> {
    let mut file = changed(|parts| parts.push((17, vec![])));
    file.pop();
    let end = file.len() as u32;
    moved(&mut file, ENTRIES - 1, |[offset, _]| [offset, u32::MAX]);
    moved(&mut file, ENTRIES, |[offset, _]| {
        let start = offset - 5 * 16 - 1;
        [start, end - start]
    });
    file
}

/// Kinds that aren't known, come twice, or not where they should.
fn kinds() -> Vec<Vec<u8>> {
    let mut files = vec![
        changed(|parts| parts.swap(0, 1)),
        changed(|parts| parts.rotate_left(1)),
        changed(|parts| _ = parts.remove(0)),
        changed(|parts| _ = parts.remove(1)),
        changed(|parts| parts.truncate(1)),
    ];
    for at in 0..ENTRIES {
        files.push(changed(|parts| parts.push(parts[at].clone())));
    }
    for kind in [4, 22] {
        files.push(changed(|parts| {
            parts.extend([(kind, vec![]), (kind, vec![])])
        }));
    }
    for kind in [0, 3, 5, 15, 23, 24, 127, 128, 255] {
        files.push(changed(|parts| parts.push((kind, vec![]))));
    }
    files
}

/// Bodies that don't hold whole parts.
fn lengths() -> Vec<Vec<u8>> {
    let lens = [
        (1, vec![0, 66, 68, 134]),
        (2, vec![1, 12, 14, 25]),
        (4, vec![1, 11, 13]),
        (16, vec![1, 79, 81]),
        (22, vec![4, 6]),
    ];
    let mut files = Vec::new();
    for (kind, lens) in lens {
        for len in lens {
            files.push(changed(|parts| {
                let at = parts.iter().position(|part| part.0 == kind);
                let at = at.unwrap_or_else(|| {
                    parts.push((kind, vec![]));
                    ENTRIES
                });
                parts[at].1.resize(len, 0);
            }));
        }
    }
    files
}

#[cfg(test)]
mod tests {
    use super::*;
    use oracle::paper::capture::parse;

    #[test]
    fn none_is_read() {
        assert!(parse(&small()).is_some());
        assert!(files().iter().all(|file| parse(file).is_none()));
    }
}
