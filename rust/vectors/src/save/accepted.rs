//! Saves that are accepted.

use crate::question::FrameQuestion;
use crate::record;
use crate::record::RECORD_LEN;
use crate::save::block;
use crate::save::question::behind;
use crate::save::question::frame;
use crate::save::question::place;
use crate::save::question::Patch;
use crate::save::question::SaveQuestion;
use crate::save::question::MOST_BYTES;
use crate::save::random::any;
use crate::save::random::with_blocks;
use crate::split_mix::SplitMix64;
use oracle::leaves::Record;
use oracle::leaves::Vector;
use oracle::save::Place;

pub fn questions(random: &mut SplitMix64) -> Vec<SaveQuestion> {
    let mut questions = sizes();
    questions.extend(vectors());
    questions.extend(references());
    questions.extend(windows(random));
    questions.extend(parts());
    questions.extend((0..12).map(|_| only_reads(random)));
    questions.extend(lengths());
    questions.extend((0..152).map(|i| any(i, random)));
    questions
}

/// Each size from the first column to the stride, and with an end that it meets exactly.
fn sizes() -> Vec<SaveQuestion> {
    let mut questions = Vec::new();
    for size in block::SIZES {
        let record = record::bytes(Record {
            size,
            ..block::PLAIN
        });
        let rows = [u32::from(size), u32::from(size) + 1];
        for columns in [[0, 38], [3, 19]] {
            questions.push(SaveQuestion::new(
                frame(300, 190),
                place(columns, rows),
                record,
            ));
        }
    }
    questions
}

/// Components at the limits of what is saved, in either vector.
fn vectors() -> Vec<SaveQuestion> {
    let limits = [4095, 4096, -4095, -4096, 16_383, -16_383];
    let row = |second: bool| {
        let mut question = SaveQuestion::new(
            frame(200, 300),
            place([0, 25], [2, 3]),
            record::bytes(block::PLAIN),
        );
        for (i, limit) in limits.into_iter().enumerate() {
            let vectors = [
                Vector { y: limit, x: 1 },
                Vector { y: 1, x: limit },
                Vector { y: limit, x: limit },
                Vector {
                    y: -limit,
                    x: limit,
                },
            ];
            for (j, mv) in vectors.into_iter().enumerate() {
                let record = record::bytes(Record {
                    mv: [if second { block::PLAIN.mv[0] } else { mv }, mv],
                    reference: [2, if second { 3 } else { -1 }],
                    ..block::PLAIN
                });
                question.put([2, (4 * i + j) as u32], 1, record);
            }
        }
        question
    };
    [false, true].map(row).to_vec()
}

/// All pairs of references, with all, none, some and one of them behind the frame.
fn references() -> Vec<SaveQuestion> {
    let mut flags = vec![[true; 7], [false; 7], [1, 4, 6, 2, 3, 5, 0].map(|i| i < 3)];
    flags.extend((0..7).map(|one| std::array::from_fn(|i| i == one)));
    let mut questions = Vec::new();
    for (i, flags) in flags.into_iter().enumerate() {
        for part in 0..3 {
            // Of the single flags, only some in each part.
            if i < 3 || i % 3 == part as usize {
                questions.push(pairs(behind(frame(200, 300), flags), part));
            }
        }
    }
    questions
}

/// A third of the pairs, in one row.
fn pairs(frame: FrameQuestion, part: u32) -> SaveQuestion {
    let filler = record::bytes(block::PLAIN);
    let mut question = SaveQuestion::new(frame, place([0, 24], [part, part + 1]), filler);
    for at in 0..24 {
        let pair = (24 * part + at) as i8;
        let record = Record {
            mv: [Vector { y: 1, x: 2 }, Vector { y: -3, x: -4 }],
            reference: [pair / 9, pair % 9 - 1],
            ..block::PLAIN
        };
        question.put([part, at], 1, record::bytes(record));
    }
    question
}

/// Windows that aren't aligned, are empty, wrap, or pass the frame, which has 25 columns of 32 and
/// 38 rows.
fn windows(random: &mut SplitMix64) -> Vec<SaveQuestion> {
    let windows = [
        ([0, 25], [0, 16]),
        ([0, 24], [8, 24]),
        ([0, 32], [13, 22]),
        ([5, 6], [37, 53]),
        ([7, 25], [36, 38]),
        ([24, 25], [31, 33]),
        ([24, 32], [0, 2]),
        ([25, 32], [0, 2]),
        ([26, 30], [0, 2]),
        ([32, 32], [0, 2]),
        ([9, 9], [0, 2]),
        ([3, 17], [15, 17]),
        ([3, 17], [7, 7]),
        ([3, 17], [38, 38]),
        ([3, 17], [38, 54]),
        ([3, 17], [39, 40]),
        ([3, 17], [100, 116]),
        ([3, 17], [i32::MAX as u32; 2]),
    ];
    windows
        .map(|(columns, rows)| {
            let filler = record::bytes(block::PLAIN);
            let question = SaveQuestion::new(frame(200, 300), place(columns, rows), filler);
            with_blocks(question, 12, random)
        })
        .to_vec()
}

/// Each tile row's and pass's part of the records has records of its own.
fn parts() -> Vec<SaveQuestion> {
    let mut questions = Vec::new();
    for (counts, sb128) in [
        ([2, 2, 2], 1),
        ([2, 2, 2], 0),
        ([4, 2, 1], 0),
        ([3, 1, 2], 1),
        ([3, 1, 1], 0),
    ] {
        let frame =
            FrameQuestion::sized(120, 250, counts).with(|frame| frame.description.sb128 = sb128);
        for tile_row in [0, counts[0] - 1] {
            for (superblock_row, pass) in [(0, 1), (1, 2), (2, 2), (3, 1)] {
                let rows = rows_of_table(sb128, superblock_row);
                let mut place = place([2, 5], rows);
                place.window.tile_row = tile_row;
                place.superblock_row = superblock_row;
                place.pass = pass;
                questions.push(divided(frame, place));
            }
        }
    }
    // With one tile thread any tile row is the first.
    let mut far = place([2, 5], [1, 2]);
    far.window.tile_row = i32::MAX as u32;
    questions.push(divided(frame(120, 250), far));
    questions
}

/// Some rows that a superblock row's table has.
fn rows_of_table(sb128: u32, superblock_row: u32) -> [u32; 2] {
    match (sb128, superblock_row % 2) {
        (1, _) => [12, 20],
        (_, 0) => [1, 8],
        (_, _) => [5, 13],
    }
}

/// Records that tell their part of the buffer, which has 35 rows, and their place in it.
fn divided(frame: FrameQuestion, place: Place) -> SaveQuestion {
    let mut question = SaveQuestion::new(frame, place, record::bytes(block::PLAIN));
    let row_len = 2 * 16;
    let parts = (question.records_len / RECORD_LEN / (35 * row_len)).min(4);
    for part in 0..parts {
        for band in 0..6 {
            let mv = Vector {
                y: part as i16 + 1,
                x: band as i16,
            };
            question.patches.push(Patch {
                first: (35 * part + 6 * band) * row_len,
                count: (35 - 6 * band).min(6) * row_len,
                record: record::bytes(Record {
                    mv: [mv; 2],
                    ..block::PLAIN
                }),
            });
        }
    }
    question
}

/// Only the records that are read are well formed.
fn only_reads(random: &mut SplitMix64) -> SaveQuestion {
    let [row, column] = [random.within(0, 30), random.within(0, 14)].map(|number| number as u32);
    let rows = random.within(1, 4) as u32;
    let place = place([column, column + 6], [row, row + rows]);
    let mut ruined = record::bytes(block::PLAIN);
    let (at, byte) = [(10, 22), (8, 255), (11, 4), (1, 64), (9, 254)][random.below(5)];
    ruined[at] = byte;
    let mut question = SaveQuestion::new(frame(200, 300), place, ruined);
    for y in row..row + rows {
        let mut x = column;
        while x < column + 6 {
            let record = block::any(random, column + 6 - x);
            question.put([y, x], 1, record);
            x += block::width(record[10]);
        }
    }
    question
}

/// Buffers that are longer than listed, and don't hold whole records or cells.
fn lengths() -> Vec<SaveQuestion> {
    let question = SaveQuestion::new(
        frame(100, 60),
        place([1, 13], [6, 8]),
        record::bytes(block::PLAIN),
    );
    let more = [[1, 0], [0, 1], [11, 4], [12, 5], [25, 13]];
    let mut questions: Vec<_> = more
        .map(|[records, field]| {
            question.with(|question| {
                question.records_len += records;
                question.field_len += field;
            })
        })
        .to_vec();
    questions.push(question.with(|question| {
        question.records_len = MOST_BYTES;
        question.field_len = MOST_BYTES;
    }));
    // The Rust goes on where the field has the row that the rows start at.
    questions.push(question.with(|question| {
        question.field_len = MOST_BYTES;
        [
            question.place.window.row_start,
            question.place.window.row_end,
        ] = [9, 12];
    }));
    questions
}
