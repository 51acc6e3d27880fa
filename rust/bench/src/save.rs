//! Times of saves of blocks of three sizes.

use crate::inputs;
use crate::inputs::ACROSS;
use crate::inputs::SIDE;
use crate::rows;
use crate::timing::Timing;
use jaskkovir::tmvs;
use jaskkovir::tmvs::Saving;
use jaskkovir::tmvs::Window;
use jaskkovir::Frame;
use jaskkovir::Tile;
use oracle::save::Place;
use oracle::save::Prepared;
use shared::split_mix::SplitMix64;
use std::hint::black_box;

const CELL_LEN: usize = 5;
const RECORD_LEN: usize = 12;

/// A superblock row in 8-sample units.
const COLUMNS: usize = ACROSS / 2;
const DOWN: usize = SIDE / 2;

pub fn all() -> Vec<Timing> {
    // Size codes of squares by their names.
    [(16, 4, 12), (8, 2, 17), (64, 16, 3)]
        .map(|(samples, side, code)| blocks(samples, side, code))
        .into()
}

/// The first superblock row, full of blocks with this side, in 4-sample units.
fn blocks(samples: usize, side: usize, code: u8) -> Timing {
    let frame = inputs::frame();
    let listed = frame.listed_sizes().expect("the frame is accepted");
    let mut field = inputs::lent(listed.saved, CELL_LEN);
    let records = records(&frame, listed.records, side, code);
    let Frame(frame) = frame;
    let saving = Saving {
        window: Window {
            tile_row: 0,
            left: 0,
            right: COLUMNS,
            top: 0,
            bottom: DOWN,
        },
        superblock_row: 0,
        pass: 1,
    };
    let place = Place {
        window: oracle::Window {
            tile_row: 0,
            col_start: 0,
            col_end: COLUMNS as u32,
            row_start: 0,
            row_end: DOWN as u32,
        },
        superblock_row: 0,
        pass: 1,
    };
    let rust = Prepared::new(&inputs::FRAME, [true; 7], &place, &records, &field);
    let ours = || {
        let answer = tmvs::save_tmvs(&frame, black_box(&saving), &records, &mut field);
        assert_eq!(answer, 0);
    };
    let rusts = || black_box(&rust).call();
    let name = format!("save, blocks of {samples} x {samples} samples");
    Timing::new(name, (DOWN * COLUMNS, "cell"), ours, rusts)
}

/// Blocks with vectors of their own, to references 1 to 7.
fn records(frame: &Frame, listed: u32, side: usize, code: u8) -> Vec<u8> {
    let mut random = SplitMix64::new(1);
    let mut records = inputs::lent(listed, RECORD_LEN);
    let tile: Tile = frame.tile(&rows::row(0)).expect("the row is accepted");
    for y in (0..SIDE).step_by(side) {
        for x in (0..ACROSS).step_by(side) {
            let [a, b] = [random.component(4095), random.component(4095)].map(i16::to_le_bytes);
            let reference = random.within(1, 7) as u8;
            let record = [a[0], a[1], b[0], b[1], 0, 0, 0, 0, reference, 255, code, 0];
            let block = jaskkovir::calls::Block {
                y,
                x,
                width: side,
                height: side,
            };
            assert_eq!(tile.splat(frame, &record, &block, &mut records), 0);
        }
    }
    records
}
