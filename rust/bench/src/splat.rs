//! Times of splats of three sizes.

use crate::inputs;
use crate::inputs::ACROSS;
use crate::inputs::SIDE;
use crate::rows;
use crate::timing::Timing;
use jaskkovir::calls;
use jaskkovir::calls::Block;
use jaskkovir::Frame;
use jaskkovir::Tile;
use oracle::splat;
use oracle::splat::Prepared;
use oracle::splat::Splatted;
use std::hint::black_box;

/// 16 x 16 samples, reference 1.
const RECORD: [u8; 12] = [5, 0, 6, 0, 0, 0, 0, 0, 1, 255, 12, 0];

pub fn all() -> Vec<Timing> {
    [(16, 4), (8, 2), (64, 16)]
        .map(|(samples, side)| blocks(samples, side))
        .into()
}

/// A superblock row full of blocks with this side, in 4-sample units.
fn blocks(samples: usize, side: usize) -> Timing {
    let frame = inputs::frame();
    let Tile(tile) = frame.tile(&rows::row(0)).expect("the row is accepted");
    let listed = frame.listed_sizes().expect("the frame is accepted");
    let mut records = inputs::lent(listed.records, RECORD.len());
    let Frame(frame) = frame;
    let table = rows::prepared().setup(&rows::place(0)).gave();
    let rust = Prepared::new(&inputs::FRAME, &table.expect("the Rust sets the row up"));
    let places = || {
        let down = (0..SIDE).step_by(side);
        down.flat_map(move |y| (0..ACROSS).step_by(side).map(move |x| [y, x]))
    };
    let ours = || {
        for [y, x] in places() {
            let block = Block {
                y,
                x,
                width: side,
                height: side,
            };
            let answer = calls::splat_mv(&frame, &tile, black_box(&RECORD), &block, &mut records);
            assert_eq!(answer, 0);
        }
    };
    let splatted = Splatted::new(RECORD);
    let rusts = || {
        for [y, x] in places() {
            let block = splat::Block {
                by4: y as u32,
                bx4: x as u32,
                width: side as u32,
                height: side as u32,
            };
            rust.call(&block, black_box(&splatted));
        }
    };
    let name = format!("splat of {samples} x {samples} samples");
    Timing::new(name, (places().count(), "call"), ours, rusts)
}
