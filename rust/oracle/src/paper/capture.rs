//! The capture file, as document 01 has it, and what `replay` asks of one.

use super::jobs::batch_is_fine;
use super::setup_answer;
use super::Job;
use crate::frame::Description;
use crate::kept::CELL_LEN;
use crate::kept::RECORD_LEN;
use crate::Window;
use std::collections::HashSet;
use std::ops::RangeInclusive;

const ENTRIES: RangeInclusive<u8> = 1..=32;

/// Kind, offset and length.
const ENTRY_LEN: usize = 9;

const JOB_LEN: usize = 13;

const DESCRIPTION: u8 = 1;
const JOBS: u8 = 2;
const RECORDS: u8 = 4;
const FIRST_FIELD: u8 = 16;
const LAST_FIELD: u8 = 22;

/// What `replay` takes.
const MOST_BYTES: usize = 65_536;
const MOST_SIDE: u32 = 256;
const MOST_TILE_ROWS: u32 = 4;

/// What stands in a capture file.
pub struct Capture<'a> {
    pub description: Description,
    pub jobs: Vec<Job>,
    /// Nothing for an absent kind; an empty body is there.
    pub records: Option<&'a [u8]>,
    pub fields: [Option<&'a [u8]>; 7],
}

impl Capture<'_> {
    /// A reference's field is lent where its kind is in the file.
    pub fn present(&self) -> [u8; 7] {
        self.fields.map(|field| field.is_some().into())
    }
}

/// Reads a file; nothing where it is malformed.
pub fn parse(file: &[u8]) -> Option<Capture<'_>> {
    let bodies = bodies(file)?;
    let kinds: HashSet<u8> = bodies.iter().map(|(kind, _)| *kind).collect();
    let once = kinds.len() == bodies.len();
    if !once || !bodies.iter().all(|(kind, body)| is_whole(*kind, body)) {
        return None;
    }
    let of_kind = |kind: u8| {
        let (_, body) = bodies.iter().find(|(other, _)| *other == kind)?;
        Some(*body)
    };
    let description = match bodies[0] {
        (DESCRIPTION, body) => body.try_into().ok()?,
        _ => return None,
    };
    let (jobs, _) = of_kind(JOBS)?.as_chunks();
    Some(Capture {
        description: Description::from_body(description),
        jobs: jobs.iter().map(job).collect(),
        records: of_kind(RECORDS),
        fields: std::array::from_fn(|at| of_kind(FIRST_FIELD + at as u8)),
    })
}

/// The kinds and bodies of all entries: in entry order, without gaps, to the file's end.
fn bodies(file: &[u8]) -> Option<Vec<(u8, &[u8])>> {
    let (count, rest) = file.split_first()?;
    if !ENTRIES.contains(count) {
        return None;
    }
    let (entries, mut rest) = rest.split_at_checked(ENTRY_LEN * usize::from(*count))?;
    let mut bodies = Vec::new();
    for &[kind, o0, o1, o2, o3, l0, l1, l2, l3] in entries.as_chunks::<ENTRY_LEN>().0 {
        let [offset, length] = [[o0, o1, o2, o3], [l0, l1, l2, l3]].map(u32::from_le_bytes);
        if offset as usize != file.len() - rest.len() {
            return None;
        }
        let (body, behind) = rest.split_at_checked(length as usize)?;
        bodies.push((kind, body));
        rest = behind;
    }
    rest.is_empty().then_some(bodies)
}

/// Whether a kind is known, and its body has whole parts.
fn is_whole(kind: u8, body: &[u8]) -> bool {
    let part = match kind {
        DESCRIPTION => return body.len() == Description::BODY_LEN,
        JOBS => JOB_LEN,
        RECORDS => RECORD_LEN as usize,
        FIRST_FIELD..=LAST_FIELD => CELL_LEN as usize,
        _ => return false,
    };
    body.len().is_multiple_of(part)
}

fn job(bytes: &[u8; JOB_LEN]) -> Job {
    let number = |at: usize| u32::from(u16::from_le_bytes([bytes[at], bytes[at + 1]]));
    Job {
        kind: bytes[0],
        window: Window {
            tile_row: bytes[1].into(),
            col_start: number(2),
            col_end: number(4),
            row_start: number(6),
            row_end: number(8),
        },
        superblock_row: number(10),
        pass: bytes[12].into(),
        done: 0,
    }
}

/// What `replay` makes of a file before its batch is judged: 13, then 12, then 1 and 2.
pub fn read(file: &[u8]) -> Result<Capture<'_>, u8> {
    let short = file.len() <= MOST_BYTES;
    let capture = parse(file).filter(|_| short).ok_or(13)?;
    if !batch_is_fine(&capture.jobs) {
        return Err(12);
    }
    if !is_small(&capture.description) {
        return Err(1);
    }
    match setup_answer(&capture.description, capture.present()) {
        0 => Ok(capture),
        answer => Err(answer),
    }
}

fn is_small(description: &Description) -> bool {
    description.width <= MOST_SIDE
        && description.height <= MOST_SIDE
        && description.tile_rows <= MOST_TILE_ROWS
}
