//! Splats that are accepted.

use crate::question::FrameQuestion;
use crate::record;
use crate::row::RowQuestion;
use crate::splat::question::block;
use crate::splat::question::SplatQuestion;
use crate::split_mix::SplitMix64;

/// Width, height, and tile rows, tile threads, frame threads.
const FRAMES: [(u32, u32, [u32; 3]); 6] = [
    (128, 128, [1, 1, 1]),
    (200, 300, [1, 1, 1]),
    (100, 300, [3, 2, 1]),
    (128, 260, [2, 2, 2]),
    (256, 256, [4, 1, 2]),
    (500, 2000, [1, 4, 1]),
];

/// Widths and heights; the tallest only fits a superblock of 128 samples.
const SHAPES: [[u32; 2]; 9] = [
    [1, 1],
    [2, 1],
    [1, 2],
    [4, 16],
    [16, 4],
    [16, 16],
    [31, 15],
    [32, 16],
    [32, 32],
];

pub fn questions(random: &mut SplitMix64) -> Vec<SplatQuestion> {
    let mut questions = Vec::new();
    for sb128 in [0, 1] {
        for (width, height, counts) in FRAMES {
            let frame = FrameQuestion::sized(width, height, counts)
                .with(|question| question.description.sb128 = sb128);
            for superblock_row in [0, 1] {
                let row = in_row(frame, superblock_row);
                questions.extend(shapes(row, random));
                questions.extend(corners(row, random));
            }
            questions.extend((0..10).map(|_| any(frame, random)));
        }
    }
    questions.extend(rows_above(random));
    questions
}

/// A superblock's side in 4-sample units.
fn side(frame: &FrameQuestion) -> u32 {
    16 << frame.description.sb128
}

/// A superblock row with one tile over the frame. Odd ones are in the last tile row and pass 2.
fn in_row(frame: FrameQuestion, superblock_row: u32) -> RowQuestion {
    let odd = superblock_row % 2;
    RowQuestion::first_of(frame).with(|question| {
        question.place.superblock_row = superblock_row;
        question.place.tile_row = odd * (frame.description.tile_rows - 1);
        question.place.pass = 1 + odd;
    })
}

/// The shapes at the superblock row's start, as far as they fit.
fn shapes(row: RowQuestion, random: &mut SplitMix64) -> Vec<SplatQuestion> {
    let side = side(&row.frame);
    let by4 = row.place.superblock_row * side;
    SHAPES
        .into_iter()
        .filter(|[_, height]| *height <= side && by4 < row.place.row_end)
        .map(|shape| SplatQuestion::new(row, block([by4, 0], shape), record::any(random)))
        .collect()
}

/// The corners of a tile of 9 x 5 in the middle of the superblock row, each with a block inside the
/// tile and one whose far side passes the tile's end.
fn corners(row: RowQuestion, random: &mut SplitMix64) -> Vec<SplatQuestion> {
    let above = row.place.superblock_row * side(&row.frame);
    if above + 9 > row.place.row_end {
        return Vec::new();
    }
    let row = row.with(|question| {
        let place = &mut question.place;
        [place.col_start, place.col_end] = [8, 17];
        [place.row_start, place.row_end] = [above + 4, above + 9];
    });
    let mut questions = Vec::new();
    for [by4, bx4] in [[4, 8], [4, 16], [8, 8], [8, 16]] {
        for shape in [[1, 1], [16, 8]] {
            let block = block([above + by4, bx4], shape);
            questions.push(SplatQuestion::new(row, block, record::any(random)));
        }
    }
    questions
}

/// Any block of any superblock row that stays inside its superblock's rows and its row of records.
fn any(frame: FrameQuestion, random: &mut SplitMix64) -> SplatQuestion {
    let mut below = |bound: u32| random.below(bound as usize) as u32;
    let (side, description) = (side(&frame), frame.description);
    let (iw4, ih4) = (
        description.width.div_ceil(4),
        description.height.div_ceil(4),
    );
    let row_width = 32 * description.width.div_ceil(128);
    let (by4, bx4) = (below(ih4), below(iw4));
    let width = 1 + below((row_width - bx4).min(32));
    let height = 1 + below(side - by4 % side);
    let row = RowQuestion::first_of(frame).with(|question| {
        let place = &mut question.place;
        place.superblock_row = by4 / side;
        place.tile_row = below(description.tile_rows);
        place.pass = 1 + below(2);
        [place.col_start, place.row_start] = [below(bx4 + 1), below(by4 + 1)];
        [place.col_end, place.row_end] = [bx4 + 1 + below(40), by4 + 1 + below(40)];
    });
    let block = block([by4, bx4], [width, height]);
    SplatQuestion::new(row, block, record::any(random))
}

/// In odd rows of superblocks of 64 samples the entries of the rows above, 16, 18 and 20, are there
/// for blocks of the row before.
fn rows_above(random: &mut SplitMix64) -> Vec<SplatQuestion> {
    let row = in_row(FrameQuestion::sized(200, 300, [1; 3]), 1);
    [(11, 1), (13, 1), (15, 1), (15, 2), (15, 17)]
        .map(|(by4, height)| {
            SplatQuestion::new(row, block([by4, 3], [4, height]), record::any(random))
        })
        .to_vec()
}
