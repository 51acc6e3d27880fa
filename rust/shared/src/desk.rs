//! The desk on which the list of the program `vectors` lays what a call is lent, as far as it has come:
//! what lies there, the lines that lay something else, and the lines that tell what a call changed.

use std::collections::HashMap;

const ROLES: usize = 24;

/// The most bytes of a part.
const ROOM: usize = 81_920;

/// The most bytes that a line lays.
const MOST_BYTES: usize = 256;

/// So many bytes that stay may stand in a line between two that don't: a line more would be longer.
const GAP: usize = 4;

/// A run of one unit has a line of its own where it spares so many bytes.
const SPARED: usize = 8;

/// What a part is lent as.
#[derive(Clone, Copy, PartialEq, Eq, Hash)]
pub struct Role(usize);

impl Role {
    pub const FRAME: Self = Self(1);
    pub const TILE: Self = Self(2);
    pub const BLOCK: Self = Self(3);
    pub const HINTS: Self = Self(4);
    pub const HINTS_BY_REF: Self = Self(5);
    pub const PRESENT: Self = Self(6);
    pub const ASK: Self = Self(7);
    pub const STACK: Self = Self(8);
    pub const FOUND: Self = Self(9);
    pub const SIZES: Self = Self(10);
    pub const STEPS: Self = Self(11);
    pub const JOBS: Self = Self(12);
    pub const RECORDS: Self = Self(13);
    pub const PROJECTION: Self = Self(14);
    pub const SAVED: Self = Self(15);
    pub const FILE: Self = Self(16);

    /// A reference's field.
    pub fn field(reference: usize) -> Self {
        Self(17 + reference)
    }

    /// How many bytes are told together: those of a cell, a record or a job, or the whole part.
    fn unit(self) -> usize {
        match self {
            Self::PROJECTION | Self::SAVED => 5,
            Self::RECORDS => 12,
            Self::JOBS => 17,
            _ => 256,
        }
    }

    /// How many bytes may come again and again.
    fn periods(self) -> [usize; 2] {
        match self {
            Self::RECORDS => [1, 12],
            _ => [1, 5],
        }
    }
}

/// The bytes of a part that a call writes, before it. No record that is in order is among them, nor a
/// cell that a save or load leaves.
pub fn lent(len: usize) -> Vec<u8> {
    (0..len).map(|i| 128 + (i % 113) as u8).collect()
}

/// Bytes that are laid from a place on, again and again, as many as the count says.
struct Patch {
    place: usize,
    count: usize,
    bytes: Vec<u8>,
}

pub struct Desk {
    rooms: Vec<Vec<u8>>,
    lens: [usize; ROLES],
}

impl Default for Desk {
    fn default() -> Self {
        Self {
            rooms: vec![vec![0; ROOM]; ROLES],
            lens: [0; ROLES],
        }
    }
}

impl Desk {
    /// Does what a line says that lays a part; any other line does nothing.
    pub fn obey(&mut self, line: &[usize]) {
        match *line {
            [1, role, len] => self.lens[role] = len,
            [2, role, place, count, ref bytes @ ..] => {
                let part = self.rooms[role][..self.lens[role]][place..].iter_mut();
                for (byte, &wanted) in part.take(count).zip(bytes.iter().cycle()) {
                    *byte = wanted as u8;
                }
            }
            [3, role] => self.keep(Role(role), &lent(self.lens[role])),
            _ => {}
        }
    }

    pub fn part(&self, role: Role) -> &[u8] {
        &self.rooms[role.0][..self.lens[role.0]]
    }

    /// Lays a part, and gives the lines that do so.
    pub fn lay(&mut self, role: Role, bytes: &[u8]) -> String {
        let mut lines = String::new();
        if self.lens[role.0] != bytes.len() {
            lines = format!("1 {} {}\n", role.0, bytes.len());
            self.lens[role.0] = bytes.len();
        }
        lines += &shortest_lines(role, self.part(role), bytes);
        self.keep(role, bytes);
        lines
    }

    /// Lays a part of the same length as a call has left it.
    pub fn keep(&mut self, role: Role, bytes: &[u8]) {
        self.rooms[role.0][..self.lens[role.0]].copy_from_slice(bytes);
    }
}

/// From what is there, or from the part as lent, or from one unit everywhere.
fn shortest_lines(role: Role, there: &[u8], wanted: &[u8]) -> String {
    let number = role.0;
    let mut ways = vec![patch_lines(role, there, wanted)];
    if wanted == lent(wanted.len()) {
        ways.push(format!("3 {number}\n"));
    } else {
        let unit = commonest(wanted, role.periods()[1]);
        let filled: Vec<u8> = unit.iter().copied().cycle().take(wanted.len()).collect();
        let fill = Patch::new(0, wanted.len(), &unit);
        ways.push(fill.line(role) + &patch_lines(role, &filled, wanted));
    }
    let shortest = ways.into_iter().min_by_key(String::len);
    shortest.expect("there is a way")
}

/// The whole unit that comes most often, or a zero.
fn commonest(bytes: &[u8], len: usize) -> Vec<u8> {
    let mut counts = HashMap::new();
    for unit in bytes.chunks_exact(len) {
        *counts.entry(unit).or_insert(0) += 1;
    }
    // The least of those, so that the choice is always the same.
    let most = counts
        .iter()
        .max_by_key(|&(unit, count)| (*count, std::cmp::Reverse(*unit)));
    match most {
        Some((unit, _)) if unit.iter().all(|byte| *byte == unit[0]) => vec![unit[0]],
        Some((unit, _)) => unit.to_vec(),
        None => vec![0],
    }
}

fn patch_lines(role: Role, there: &[u8], wanted: &[u8]) -> String {
    let patches = differing(there, wanted)
        .into_iter()
        .flat_map(|[start, end]| patches(role, wanted, start, end));
    patches.map(|patch| patch.line(role)).collect()
}

/// The stretches in which bytes differ.
fn differing(there: &[u8], wanted: &[u8]) -> Vec<[usize; 2]> {
    let mut stretches: Vec<[usize; 2]> = Vec::new();
    for at in (0..wanted.len()).filter(|&at| there[at] != wanted[at]) {
        match stretches.last_mut() {
            Some([_, end]) if at <= *end + GAP => *end = at + 1,
            _ => stretches.push([at, at + 1]),
        }
    }
    stretches
}

/// A stretch as single bytes and runs.
fn patches(role: Role, wanted: &[u8], start: usize, end: usize) -> Vec<Patch> {
    let mut patches: Vec<Patch> = Vec::new();
    let mut at = start;
    while at < end {
        let spared = |len: &usize| run(&wanted[..end], at, *len).saturating_sub(*len);
        let len = role.periods().into_iter().max_by_key(spared);
        let len = len.expect("there are two");
        if spared(&len) >= SPARED {
            let count = len + spared(&len);
            patches.push(Patch::new(at, count, &wanted[at..at + len]));
            at += count;
            continue;
        }
        match patches.last_mut() {
            Some(last) if last.is_joined(at) => last.push(wanted[at]),
            _ => patches.push(Patch::new(at, 1, &wanted[at..=at])),
        }
        at += 1;
    }
    patches
}

/// How many bytes there are from a place on that come again after so many.
fn run(bytes: &[u8], at: usize, len: usize) -> usize {
    let behind = bytes.len().min(at + len);
    (behind..bytes.len())
        .find(|&next| bytes[next] != bytes[next - len])
        .unwrap_or(bytes.len())
        - at
}

impl Patch {
    fn new(place: usize, count: usize, bytes: &[u8]) -> Self {
        Self {
            place,
            count,
            bytes: bytes.to_vec(),
        }
    }

    /// Whether it is of single bytes, ends at a place and may have one more.
    fn is_joined(&self, at: usize) -> bool {
        self.count == self.bytes.len() && self.place + self.count == at && self.count < MOST_BYTES
    }

    fn push(&mut self, byte: u8) {
        self.count += 1;
        self.bytes.push(byte);
    }

    fn line(&self, role: Role) -> String {
        let bytes: Vec<String> = self.bytes.iter().map(u8::to_string).collect();
        let bytes = bytes.join(" ");
        format!("2 {} {} {} {bytes}\n", role.0, self.place, self.count)
    }
}

/// What a call changed in a part: a line for each run of units that changed alike.
pub fn changes(role: Role, before: &[u8], after: &[u8]) -> String {
    assert_eq!(before.len(), after.len(), "a part keeps its length");
    let pairs = before.iter().zip(after);
    let bytes: Vec<Option<u8>> = pairs.map(|(was, is)| (was != is).then_some(*is)).collect();
    let units: Vec<&[Option<u8>]> = bytes.chunks(role.unit()).collect();
    let mut lines = String::new();
    let mut place = 0;
    for alike in units.chunk_by(PartialEq::eq) {
        if alike[0].iter().any(Option::is_some) {
            let words: Vec<String> = alike[0].iter().map(word).collect();
            let [number, count] = [role.0, alike.len()];
            lines += &format!(" {number} {place} {count} {}\n", words.join(" "));
        }
        place += alike.iter().map(|unit| unit.len()).sum::<usize>();
    }
    lines
}

fn word(byte: &Option<u8>) -> String {
    byte.map_or_else(|| "-".to_string(), |byte| byte.to_string())
}
