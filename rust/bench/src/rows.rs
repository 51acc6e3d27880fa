//! Times of superblock-row setup.

use crate::inputs;
use crate::inputs::ACROSS;
use crate::timing::Timing;
use jaskkovir::calls;
use jaskkovir::calls::Row;
use jaskkovir::Frame;
use jaskkovir::Tile;
use oracle::frame;
use oracle::record::frame_record;
use oracle::rows::Place;
use oracle::rows::Prepared;
use std::hint::black_box;

const CALLS: usize = 1000;

/// One tile over the whole frame, in this superblock row.
pub fn place(superblock_row: u32) -> Place {
    Place {
        col_start: 0,
        col_end: ACROSS as u32,
        row_start: 0,
        row_end: 270,
        superblock_row,
        tile_row: 0,
        pass: 1,
    }
}

/// The same for the port.
pub fn row(superblock_row: usize) -> Row {
    Row {
        col_start: 0,
        col_end: ACROSS,
        row_start: 0,
        row_end: 270,
        superblock_row,
        tile_row: 0,
        pass: 1,
    }
}

/// Row tables for the Rust.
pub fn prepared() -> Prepared {
    let finished = frame::setup(&inputs::FRAME, [true; 7]).gave();
    let finished = finished.expect("the Rust sets the frame up");
    Prepared::on_record(&frame_record(&inputs::FRAME, &finished))
}

/// Even and odd superblock rows by turns.
pub fn setup() -> Timing {
    let Frame(frame) = inputs::frame();
    let mut tile = [0; Tile::LEN];
    let rust = prepared();
    let ours = || {
        for at in 0..CALLS {
            let answer = calls::tile_sbrow_init(&frame, &row(at % 16), black_box(&mut tile));
            assert_eq!(answer, 0);
        }
    };
    let rusts = || {
        for at in 0..CALLS as u32 {
            black_box(rust.call(black_box(&place(at % 16))));
        }
    };
    Timing::new("superblock-row setup", (CALLS, "call"), ours, rusts)
}
