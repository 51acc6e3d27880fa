//! Superblock rows that are accepted.

use crate::question::FrameQuestion;
use crate::row::RowQuestion;
use crate::split_mix::SplitMix64;

/// Tile rows, tile threads, frame threads.
const COUNTS: [[u32; 3]; 7] = [
    [1, 1, 1],
    [4, 1, 1],
    [1, 2, 1],
    [4, 2, 1],
    [1, 1, 2],
    [4, 3, 2],
    [64, 255, 255],
];

/// The Rust multiplies the superblock row by up to 32 in 32 bits.
const LAST_ROW: u32 = (1 << 24) - 1;

pub fn questions(random: &mut SplitMix64) -> Vec<RowQuestion> {
    let mut questions = Vec::new();
    for sb128 in [0, 1] {
        for counts in COUNTS {
            let frame = FrameQuestion::sized(200, 300, counts)
                .with(|question| question.description.sb128 = sb128);
            questions.extend(rows(RowQuestion::first_of(frame)));
            questions.extend(bounds(RowQuestion::first_of(frame)));
        }
        questions.extend(sizes(sb128));
    }
    questions.extend((0..200).map(|_| any(random)));
    questions
}

/// Even and odd superblock rows in both passes, in the first tile row and the last.
fn rows(first: RowQuestion) -> Vec<RowQuestion> {
    let mut questions = Vec::new();
    for superblock_row in [0, 1, 2, 3, LAST_ROW - 1, LAST_ROW] {
        for pass in [1, 2] {
            questions.extend([0, first.frame.description.tile_rows - 1].map(|tile_row| {
                first.with(|question| {
                    question.place.superblock_row = superblock_row;
                    question.place.pass = pass;
                    question.place.tile_row = tile_row;
                })
            }));
        }
    }
    questions
}

/// Tile ends at, before and past the frame's, which is at column 50 and row 76; empty tiles, and
/// tiles that start past the frame.
fn bounds(first: RowQuestion) -> Vec<RowQuestion> {
    let columns = [
        [0, 49],
        [8, 50],
        [8, 51],
        [49, 64],
        [50, 50],
        [51, 51],
        [0, 0],
    ];
    let rows = [
        [0, 75],
        [32, 76],
        [32, 77],
        [75, 96],
        [76, 76],
        [90, 95],
        [64, 64],
    ];
    let tile = |[col_start, col_end]: [u32; 2], [row_start, row_end]: [u32; 2]| {
        first.with(|question| {
            let place = &mut question.place;
            [place.col_start, place.col_end] = [col_start, col_end];
            [place.row_start, place.row_end] = [row_start, row_end];
        })
    };
    let mut questions: Vec<_> = columns
        .into_iter()
        .zip(rows)
        .map(|(columns, rows)| tile(columns, rows))
        .collect();
    let far = i32::MAX as u32;
    questions.push(tile([0, far], [far, far]));
    questions.push(tile([far, far], [0, far]));
    questions
}

/// The stride sets the distance between rows.
fn sizes(sb128: u32) -> Vec<RowQuestion> {
    let sizes = [
        [1, 1],
        [128, 64],
        [129, 128],
        [1920, 1080],
        [16_384, 16_384],
    ];
    let mut questions = Vec::new();
    for [width, height] in sizes {
        let frame = FrameQuestion::sized(width, height, [3, 2, 2])
            .with(|question| question.description.sb128 = sb128);
        questions.extend([1, 2].map(|pass| {
            RowQuestion::first_of(frame).with(|question| {
                question.place.superblock_row = pass;
                question.place.tile_row = 2;
                question.place.pass = pass;
            })
        }));
    }
    questions
}

fn any(random: &mut SplitMix64) -> RowQuestion {
    let mut up_to = |last: i32| random.within(0, last) as u32;
    let counts = [up_to(63) + 1, up_to(2) + 1, up_to(2) + 1];
    let frame = FrameQuestion::sized(up_to(1199) + 1, up_to(1999) + 1, counts)
        .with(|question| question.description.sb128 = up_to(1));
    RowQuestion::first_of(frame).with(|question| {
        let place = &mut question.place;
        place.col_start = up_to(300);
        place.col_end = place.col_start + up_to(100);
        place.row_start = up_to(500);
        place.row_end = place.row_start + up_to(200);
        place.superblock_row = up_to(40);
        place.tile_row = up_to(counts[0] as i32 - 1);
        place.pass = up_to(1) + 1;
    })
}
