//! Capture files with something changed.

use super::player::Lens;
use shared::captures;
use shared::captures::Part;
use shared::captures::ENTRY_LEN;
use shared::split_mix::SplitMix64;

const DESCRIPTION_LEN: usize = 67;

const JOB_LEN: usize = 13;

/// The kinds that a file may have.
const KINDS: [u8; 10] = [1, 2, 4, 16, 17, 18, 19, 20, 21, 22];

/// As much of a file as tells its entries, description and jobs.
pub fn head(file: &[u8]) -> &[u8] {
    &file[..file.len().min(300)]
}

/// A real file with something changed, and how much is lent for it.
pub fn any(random: &mut SplitMix64, whole: &[u8]) -> (Vec<u8>, Lens) {
    let mut parts = captures::parts(whole);
    for _ in 0..random.below(4) {
        change_part(random, &mut parts);
    }
    let mut file = captures::file(&parts);
    for _ in 0..random.below(9).saturating_sub(6) {
        change_file(random, &mut file);
    }
    (file, lens(random))
}

/// Leaves a file whose entries and bodies fit one another.
fn change_part(random: &mut SplitMix64, parts: &mut Vec<Part>) {
    let at = random.below(parts.len());
    match random.below(24) {
        0 => change_kinds(random, parts),
        1 => {
            let len = parts[at].1.len();
            parts[at].1.resize(near(random, len), 0);
        }
        2..5 => change_length(random, &mut parts[at]),
        5..9 => change_description(random, parts),
        9..15 => change_job(random, parts),
        _ => change_read(random, parts),
    }
}

fn change_kinds(random: &mut SplitMix64, parts: &mut Vec<Part>) {
    let at = random.below(parts.len());
    match random.below(5) {
        0 => parts.swap(at, at.saturating_sub(1)),
        1 => parts.insert(at, parts[at].clone()),
        2 if parts.len() > 1 => _ = parts.remove(at),
        3 => parts[at].0 = kind(random),
        _ => parts.push((kind(random), vec![0; 60 * random.below(3)])),
    }
}

/// Changes records or cells, most often bytes that are judged: a size code or a reference.
fn change_read(random: &mut SplitMix64, parts: &mut [Part]) {
    let at = random.below(parts.len());
    let (kind, body) = &mut parts[at];
    let (unit, judged) = match kind {
        1 | 2 => return,
        4 => (12, 10),
        _ => (5, 4),
    };
    if body.len() < unit {
        return;
    }
    for _ in 0..=random.below(20) {
        let first = unit * random.below(body.len() / unit);
        let byte = [judged, random.below(unit)][random.below(2)];
        body[first + byte] = match random.below(3) {
            0 => random.bytes::<1>()[0],
            _ => random.below(24) as u8,
        };
    }
}

fn kind(random: &mut SplitMix64) -> u8 {
    match random.below(4) {
        0 => random.bytes::<1>()[0],
        _ => KINDS[random.below(KINDS.len())],
    }
}

/// Some more or less than this.
fn near(random: &mut SplitMix64, number: usize) -> usize {
    (number + random.below(31)).saturating_sub(15)
}

/// Leaves whole jobs, records or cells.
fn change_length(random: &mut SplitMix64, (kind, body): &mut Part) {
    let unit = match kind {
        1 => return,
        2 => JOB_LEN,
        4 => 12,
        _ => 5,
    };
    let count = match random.below(3) {
        0 => near(random, body.len() / unit),
        1 => random.below(body.len() / unit + 1),
        _ => body.len() / unit + random.below(4000),
    };
    body.resize(unit * count, 0);
}

fn change_description(random: &mut SplitMix64, parts: &mut [Part]) {
    let is_whole = |(kind, body): &&mut Part| *kind == 1 && body.len() == DESCRIPTION_LEN;
    let Some((_, body)) = parts.iter_mut().find(is_whole) else {
        return;
    };
    let sides = [0, 1, 64, 128, 200, 255, 256, 257, 16_384];
    let side = sides[random.below(sides.len())] as u16;
    let small = random.below(9) as u8;
    match random.below(12) {
        at @ 0..2 => body[2 * at..2 * at + 2].copy_from_slice(&side.to_le_bytes()),
        at @ 2..8 => body[[4, 5, 63, 64, 65, 66][at - 2]] = small,
        8 => body[6] = random.bytes::<1>()[0],
        _ => body[7 + random.below(56)] = random.bytes::<1>()[0],
    }
}

fn change_job(random: &mut SplitMix64, parts: &mut [Part]) {
    let Some((_, body)) = parts.iter_mut().find(|part| part.0 == 2) else {
        return;
    };
    let (jobs, _) = body.as_chunks_mut::<JOB_LEN>();
    if jobs.is_empty() {
        return;
    }
    let at = random.below(jobs.len());
    let number = match random.below(6) {
        0 => u16::from_le_bytes(random.bytes()),
        _ => random.below(40) as u16,
    };
    match random.below(10) {
        0 => jobs[at][0] ^= 1,
        1 => jobs[at][0] = random.below(4) as u8,
        2 => jobs[at][1] = random.below(5) as u8,
        3 => jobs[at][12] = random.below(4) as u8,
        4 => jobs[at] = jobs[random.below(jobs.len())],
        field => jobs[at][2 * field - 8..2 * field - 6].copy_from_slice(&number.to_le_bytes()),
    }
}

/// Changes some bytes, most often of entries, description and jobs, or the file's length.
fn change_file(random: &mut SplitMix64, file: &mut Vec<u8>) {
    if file.is_empty() {
        return;
    }
    let head = file.len().min(1 + ENTRY_LEN * usize::from(file[0]) + 200);
    match random.below(10) {
        0 => file.truncate(random.below(file.len() + 1)),
        1 => file.resize(near(random, file.len()), 0),
        2 => _ = file.remove(random.below(head)),
        3 => file.insert(random.below(head), random.bytes::<1>()[0]),
        4..7 => change_entry(random, file),
        7 => put_bytes(random, &mut file[..head]),
        _ => put_bytes(random, file),
    }
}

fn put_bytes(random: &mut SplitMix64, bytes: &mut [u8]) {
    for _ in 0..=random.below(4) {
        let at = random.below(bytes.len());
        bytes[at] = match random.below(2) {
            0 => random.bytes::<1>()[0],
            _ => bytes[at].wrapping_add_signed(random.within(-5, 5) as i8),
        };
    }
}

/// Changes the offset or the length of an entry, or its kind.
fn change_entry(random: &mut SplitMix64, file: &mut [u8]) {
    let (entries, _) = file[1..].as_chunks_mut::<ENTRY_LEN>();
    let count = entries.len().min(11);
    if count == 0 {
        return;
    }
    let entry = &mut entries[random.below(count)];
    let at = match random.below(3) {
        0 => {
            entry[0] = kind(random);
            return;
        }
        which => 4 * which - 3,
    };
    let number = u32::from_le_bytes(std::array::from_fn(|i| entry[at + i]));
    let other = match random.below(4) {
        0 => u32::from_le_bytes(random.bytes()),
        1 => u32::MAX - random.below(20) as u32,
        _ => number.wrapping_add_signed(random.within(-15, 15)),
    };
    entry[at..at + 4].copy_from_slice(&other.to_le_bytes());
}

/// Mostly all that is needed; else any of the parts shorter.
fn lens(random: &mut SplitMix64) -> Lens {
    let mut lens = Lens::LISTED;
    match random.below(30) {
        0 => lens.projection = random.below(lens.projection),
        1 => lens.saved = random.below(lens.saved),
        2 => lens.projection = 5 * 16 * 16 * (1 + random.below(4)) - random.below(3),
        3 => lens.saved = 5 * 16 * (1 + random.below(64)) - random.below(3),
        4 => lens.steps = random.below(lens.steps),
        _ => {}
    }
    lens
}

#[cfg(test)]
mod tests {
    use super::super::SAMPLE;
    use super::*;
    use oracle::replay;
    use std::path::Path;

    /// Damage leaves some file to each number that a capture can be refused with.
    #[test]
    fn files_are_of_all_kinds() {
        let sample = captures::read(Path::new(SAMPLE)).unwrap();
        let mut random = SplitMix64::new(5);
        let mut seen = [0; 14];
        for _ in 0..1000 {
            let whole = &sample[random.below(sample.len())].file;
            let (file, lens) = any(&mut random, whole);
            let [mut projection, mut saved] = [lens.projection, lens.saved].map(|len| vec![0; len]);
            let answer = replay::play(&file, &mut projection, &mut saved);
            seen[usize::from(answer.err().unwrap_or(0))] += 1;
        }
        let numbers = [1, 2, 3, 4, 6, 7, 8, 9, 11, 12, 13];
        assert!(seen[0] > 100, "{seen:?}");

        assert!(numbers.iter().all(|&number| seen[number] > 0), "{seen:?}");
    }
}
