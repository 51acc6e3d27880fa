//! The records and cells that a search reads, each judged and noted.

use super::super::sizes::SIDES_OF;
use super::super::splat::record_is_well_formed;
use super::listed_records;
use super::Lent;
use super::Mv;
use crate::kept::CELL_LEN;
use crate::kept::RECORD_LEN;

pub(super) const INVALID: Mv = [-32_768; 2];

/// The lent parts, with a note of each read.
pub(super) struct Reads<'a> {
    lent: Lent<'a>,
    pub records: Vec<u64>,
    pub cells: Vec<u64>,
}

/// A well-formed record.
pub(super) struct Neighbour {
    pub mv: [Mv; 2],
    pub references: [i64; 2],
    pub width: i64,
    pub height: i64,
    /// Coded with the global mode.
    pub global: bool,
    /// Coded with a new vector.
    pub new: bool,
}

/// A projected cell that is there.
pub(super) struct Projected {
    pub mv: Mv,
    pub distance: i64,
}

impl<'a> Reads<'a> {
    pub fn new(lent: &Lent<'a>) -> Self {
        Self {
            lent: *lent,
            records: Vec::new(),
            cells: Vec::new(),
        }
    }

    /// The record of a column in an entry's row: 6, then 4, then 8.
    pub fn record(&mut self, entry: i64, column: i64) -> Result<Neighbour, u8> {
        let offset = self.lent.table.entries.get(entry as usize);
        let offset = offset.copied().flatten().ok_or(6)?;
        let place = u64::from(offset) + column as u64;
        if place >= listed_records(self.lent.record) {
            return Err(4);
        }
        let (whole, _) = self.lent.records.as_chunks::<{ RECORD_LEN as usize }>();
        let bytes = whole[place as usize];
        if !record_is_well_formed(bytes) {
            return Err(8);
        }
        note(&mut self.records, place);
        Ok(neighbour(bytes))
    }

    /// A cell of a row and column of the tile row's part: 4, then 7.
    pub fn projected(&mut self, row: i64, column: i64) -> Result<Option<Projected>, u8> {
        let within = row * i64::from(self.lent.record.stride) + column;
        let place = u64::from(self.lent.table.projection) + within as u64;
        if place >= 16 * u64::from(self.lent.record.n_blocks) {
            return Err(4);
        }
        let (whole, _) = self.lent.projection.as_chunks::<{ CELL_LEN as usize }>();
        let bytes = whole[place as usize];
        let (mv, distance) = (vector(&bytes), i64::from(bytes[4] as i8));
        let there = mv != INVALID;
        if there && !(is_within(mv, 4095) && (1..=31).contains(&distance)) {
            return Err(7);
        }
        note(&mut self.cells, place);
        Ok(there.then_some(Projected { mv, distance }))
    }
}

/// Each place once.
fn note(places: &mut Vec<u64>, place: u64) {
    if !places.contains(&place) {
        places.push(place);
    }
}

fn neighbour(bytes: [u8; 12]) -> Neighbour {
    let [width, height] = SIDES_OF[usize::from(bytes[10])].map(i64::from);
    Neighbour {
        mv: [vector(&bytes), vector(&bytes[4..])],
        references: [bytes[8], bytes[9]].map(|byte| i64::from(byte as i8)),
        width,
        height,
        global: bytes[11] & 1 == 1,
        new: bytes[11] & 2 == 2,
    }
}

fn vector(bytes: &[u8]) -> Mv {
    [0, 2].map(|at| i16::from_le_bytes([bytes[at], bytes[at + 1]]).into())
}

fn is_within(mv: Mv, limit: i64) -> bool {
    mv.iter().all(|component| component.abs() <= limit)
}
