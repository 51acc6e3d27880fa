//! The frame record and the tile in bytes, as the port lays them out.

use cases::codec::ABSENT;
use cases::codec::SKIPPED;
use jaskkovir::Ask;
use jaskkovir::Frame;
use jaskkovir::Tile;
use oracle::leaves::Vector;
use oracle::paper::FrameRecord;
use oracle::paper::HintFields;
use oracle::paper::RowTable;
use oracle::paper::Slot;
use oracle::rows::Table;
use oracle::search;

pub use cases::codec::frame_bytes;

/// Where the numbers of one byte start, then the hints and the selected references.
const FLAGS: usize = 48;
const HINTS: usize = 51;
const SLOTS: usize = 79;

/// Any bytes as a record that the paper can judge.
pub fn frame_at(bytes: &[u8; Frame::LEN]) -> FrameRecord {
    let size = |i: usize| four_at(bytes, 4 * i);
    FrameRecord {
        width: size(0),
        height: size(1),
        iw4: size(2),
        ih4: size(3),
        iw8: size(4),
        ih8: size(5),
        sbsz: size(6),
        stride: size(7),
        tile_rows: size(8),
        n_blocks: size(9),
        n_tile_threads: size(10),
        n_frame_threads: size(11),
        use_ref_frame_mvs: bytes[FLAGS],
        temporal: bytes[FLAGS + 1],
        n_mfmvs: bytes[FLAGS + 2],
        hints: std::array::from_fn(|i| hint_at(bytes, HINTS + 4 * i)),
        slots: std::array::from_fn(|n| slot_at(bytes, SLOTS + 10 * n)),
    }
}

fn hint_at(bytes: &[u8], at: usize) -> HintFields {
    HintFields {
        sign_bias: bytes[at],
        mfmv_sign: bytes[at + 1],
        pocdiff: narrowed(half_at(bytes, at + 2)),
    }
}

fn slot_at(bytes: &[u8], at: usize) -> Slot {
    let ref2cur = half_at(bytes, at + 1);
    Slot {
        reference: bytes[at],
        ref2cur: (ref2cur != SKIPPED).then(|| narrowed(ref2cur)),
        ref2ref: std::array::from_fn(|m| bytes[at + 3 + m]),
    }
}

/// The paper keeps distances in a byte. What doesn't fit there is out of range, and so is this.
fn narrowed(distance: i16) -> i8 {
    distance.clamp(i8::MIN.into(), i8::MAX.into()) as i8
}

/// The Rust's table, with the starts that it was asked for.
pub fn tile_bytes(table: &Table, [col_start, row_start]: [u32; 2]) -> [u8; Tile::LEN] {
    cases::codec::tile_bytes(&RowTable {
        col_start,
        row_start,
        ..table.into()
    })
}

/// Any bytes as a tile that the paper can judge.
pub fn table_at(bytes: &[u8; Tile::LEN]) -> RowTable {
    let number = |i: usize| four_at(bytes, 4 * i);
    RowTable {
        entries: std::array::from_fn(|e| Some(number(e)).filter(|&place| place != ABSENT)),
        projection: number(37),
        col_start: number(38),
        col_end: number(39),
        row_start: number(40),
        row_end: number(41),
    }
}

/// A search's ask, by the wrapper's own type.
pub fn ask_bytes(ask: &search::Ask) -> [u8; Ask::LEN] {
    let global = |global: search::Global| jaskkovir::Global {
        vector: jaskkovir::leaves::Vector {
            y: global.mv.y,
            x: global.mv.x,
        },
        above: global.above,
    };
    let ask = Ask {
        references: ask.references,
        size: ask.size,
        above_right: ask.above_right,
        y: ask.by4,
        x: ask.bx4,
        globals: ask.globals.map(global),
        integer: ask.integer,
        hp: ask.hp,
    };
    ask.to_bytes()
}

/// Any bytes as an ask that the paper can judge.
pub fn ask_at(bytes: &[u8; Ask::LEN]) -> search::Ask {
    let ask = Ask::from_bytes(bytes);
    let global = |global: jaskkovir::Global| search::Global {
        mv: Vector {
            y: global.vector.y,
            x: global.vector.x,
        },
        above: global.above,
    };
    search::Ask {
        references: ask.references,
        size: ask.size,
        above_right: ask.above_right,
        by4: ask.y,
        bx4: ask.x,
        globals: ask.globals.map(global),
        integer: ask.integer,
        hp: ask.hp,
    }
}

/// Replaces one of a tile's numbers.
pub fn put_number(bytes: &mut [u8; Tile::LEN], at: usize, number: u32) {
    bytes[4 * at..4 * at + 4].copy_from_slice(&number.to_le_bytes());
}

pub fn four_at(bytes: &[u8], at: usize) -> u32 {
    u32::from_le_bytes(std::array::from_fn(|i| bytes[at + i]))
}

fn half_at(bytes: &[u8], at: usize) -> i16 {
    i16::from_le_bytes([bytes[at], bytes[at + 1]])
}

#[cfg(test)]
mod tests {
    use super::*;
    use crate::frames;
    use shared::split_mix::SplitMix64;

    #[test]
    fn records_come_back_from_their_bytes() {
        let mut random = SplitMix64::new(1);
        for _ in 0..1000 {
            let record = frames::record(&mut random, frames::WHOLE);
            assert_eq!(frame_at(&frame_bytes(&record)), record);
        }
    }

    #[test]
    fn asks_come_back_from_their_bytes() {
        let bytes = std::array::from_fn(|at| (100 + 7 * at) as u8);
        assert_eq!(ask_bytes(&ask_at(&bytes)), bytes);
        assert_eq!(cases::codec::ask_bytes(&ask_at(&bytes)), bytes);
    }

    #[test]
    fn distances_that_are_out_of_range_stay_so() {
        let far = [-32_767, -129, -32, 32, 128, 32_767];
        assert!(far.map(narrowed).iter().all(|it| it.unsigned_abs() > 31));
        assert_eq!([-31, 0, 31].map(narrowed), [-31, 0, 31]);
    }
}
