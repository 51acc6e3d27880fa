//! What a search is asked, and what is wrong with it.

use super::Run;
use super::CELL_LEN;
use super::MORE;
use super::RECORD_LEN;
use crate::codec;
use crate::frames;
use jaskkovir::Ask;
use jaskkovir::Frame;
use jaskkovir::Tile;
use oracle::paper;
use oracle::paper::Lent;
use shared::split_mix::SplitMix64;

/// A record or a cell at a place.
#[derive(Clone, Copy, Debug)]
pub enum Put {
    Record(usize, [u8; RECORD_LEN]),
    Cell(usize, [u8; CELL_LEN]),
}

#[derive(Debug)]
pub struct Question {
    pub frame: [u8; Frame::LEN],
    pub tile: [u8; Tile::LEN],
    pub ask: [u8; Ask::LEN],
    /// A record or cell that is other than the scene's.
    pub put: Option<Put>,
    /// How many bytes of the records and of the projection are lent.
    pub lens: [usize; 2],
}

impl Question {
    /// Half of them have nothing wrong.
    pub fn any(random: &mut SplitMix64, run: &Run) -> Self {
        let mut question = Self {
            frame: run.frame,
            tile: run.tile,
            ask: codec::ask_bytes(&run.scene.ask(random)),
            put: None,
            lens: [run.records.len(), run.projection.len()],
        };
        match random.below(40) {
            0 => frames::ruin(random, &mut question.frame),
            1..4 => change_tile(random, run, &mut question.tile),
            4..8 => question.change_ask(random, run),
            8..16 => question.put = put(random, run, &question),
            16 | 17 => question.shorten(random),
            18 => {
                question.put = put(random, run, &question);
                question.change_ask(random, run);
                change_tile(random, run, &mut question.tile);
                question.shorten(random);
            }
            _ => {}
        }
        question
    }

    /// Moves a number to a limit or past it, or changes any byte.
    fn change_ask(&mut self, random: &mut SplitMix64, run: &Run) {
        let rows = &run.scene.rows;
        let mut ask = Ask::from_bytes(&self.ask);
        let near = |random: &mut SplitMix64, [start, end]: [u32; 2]| {
            let edges = [
                start.wrapping_sub(1),
                start,
                end - 1,
                end,
                end + 1,
                u32::MAX,
            ];
            edges[random.below(edges.len())]
        };
        let flag = [2, 255][random.below(2)];
        let at = random.below(2);
        match random.below(12) {
            0 => ask.y = near(random, [rows.row_start, rows.row_end]),
            1 => ask.x = near(random, [rows.col_start, rows.col_end]),
            2 => ask.size = [21, 22, 255][random.below(3)],
            3 => ask.references[0] = [0, 1, 7, 8, -1, -128][random.below(6)],
            4 => ask.references[1] = [0, 1, 7, 8, -1, -2, 127][random.below(7)],
            5 => ask.above_right = flag,
            6 => ask.globals[at].above = flag,
            7 => ask.integer = flag,
            8 => ask.hp = flag,
            9 => ask.globals[at].vector.y = edge(random),
            10 => ask.globals[at].vector.x = edge(random),
            _ => {
                self.ask[random.below(Ask::LEN)] = random.bytes::<1>()[0];
                return;
            }
        }
        self.ask = ask.to_bytes();
    }

    fn shorten(&mut self, random: &mut SplitMix64) {
        let len = &mut self.lens[random.below(2)];
        *len = match random.below(3) {
            0 => random.below(*len),
            _ => *len - random.below(2 * MORE),
        };
    }
}

/// A component at the limit of global vectors, or past it.
fn edge(random: &mut SplitMix64) -> i16 {
    let edges = [16_383, 16_384, -16_383, -16_384, i16::MIN, i16::MAX];
    edges[random.below(edges.len())]
}

/// Entries, the place in the projection, and bounds.
fn change_tile(random: &mut SplitMix64, run: &Run, tile: &mut [u8; Tile::LEN]) {
    let listed = run.records.len() / RECORD_LEN;
    let cells = run.projection.len() / CELL_LEN;
    for _ in 0..=random.below(4) {
        let (at, number) = match random.below(8) {
            0..4 => (random.below(37), place(random, listed)),
            4 | 5 => (37, place(random, cells)),
            _ => {
                let at = 38 + random.below(4);
                let near = codec::four_at(tile, 4 * at) as usize;
                (at, (near + random.below(5)).saturating_sub(2))
            }
        };
        codec::put_number(tile, at, number as u32);
    }
}

/// A place of a buffer, near its end more often; some are absent or far past it.
fn place(random: &mut SplitMix64, count: usize) -> usize {
    match random.below(5) {
        0 => u32::MAX as usize,
        1 => u32::MAX as usize - random.below(4000),
        2 => count + 4 - random.below(count.min(200)),
        _ => random.below(count),
    }
}

/// A record or cell that the search reads, changed; none where it is refused.
fn put(random: &mut SplitMix64, run: &Run, question: &Question) -> Option<Put> {
    let lent = Lent {
        record: &run.scene.record,
        table: &run.scene.rows,
        records: &run.records,
        projection: &run.projection,
    };
    let searched = paper::search(&lent, &codec::ask_at(&question.ask)).ok()?;
    let reads = [&searched.records, &searched.cells];
    let kind = random.below(2);
    let kind = if reads[kind].is_empty() {
        1 - kind
    } else {
        kind
    };
    if reads[kind].is_empty() {
        return None;
    }
    let place = reads[kind][random.below(reads[kind].len())] as usize;
    Some(match kind {
        0 => Put::Record(
            place,
            changed_record(random, run.records.as_chunks().0[place]),
        ),
        _ => Put::Cell(
            place,
            changed_cell(random, run.projection.as_chunks().0[place]),
        ),
    })
}

/// Mostly to a limit of a well-formed record, or past it.
fn changed_record(random: &mut SplitMix64, mut record: [u8; RECORD_LEN]) -> [u8; RECORD_LEN] {
    match random.below(6) {
        0 => record[8] = [0, 1, 7, 8, 255][random.below(5)],
        1 => record[9] = [0, 1, 7, 8, 255, 254][random.below(6)],
        2 => record[10] = [0, 3, 12, 21, 22, 255][random.below(6)],
        3 => record[11] = [0, 1, 2, 3, 4, 255][random.below(6)],
        4 => {
            let at = 2 * random.below(4);
            record[at..at + 2].copy_from_slice(&edge(random).to_le_bytes());
        }
        _ => record[random.below(RECORD_LEN)] = random.bytes::<1>()[0],
    }
    record
}

fn changed_cell(random: &mut SplitMix64, mut cell: [u8; CELL_LEN]) -> [u8; CELL_LEN] {
    let edges = [4095, -4095, 4096, -4096, i16::MIN, 0];
    for at in [0, 2] {
        if random.below(2) == 0 {
            let component: i16 = edges[random.below(edges.len())];
            cell[at..at + 2].copy_from_slice(&component.to_le_bytes());
        }
    }
    if random.below(2) == 0 {
        cell[4] = [0, 1, 31, 32, 128, 255][random.below(6)];
    }
    cell
}
