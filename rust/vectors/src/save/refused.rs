//! Saves at the limits of what is accepted.

use crate::damage::Damage;
use crate::limits::COLUMNS;
use crate::limits::ROWS;
use crate::limits::TILE_ROWS;
use crate::question::FrameQuestion;
use crate::record;
use crate::save::block;
use crate::save::question::frame;
use crate::save::question::place;
use crate::save::question::SaveQuestion;
use crate::save::question::MOST_BYTES;
use oracle::leaves::Record;
use oracle::leaves::Vector;

/// Fields of the frame's record that are ruined: a few of each kind.
const RUINED: [u32; 12] = [1, 2, 5, 7, 8, 10, 12, 13, 15, 17, 38, 63];

/// Each limit of a save with its neighbours; those inside it are accepted.
pub fn questions() -> Vec<SaveQuestion> {
    let mut questions = passes();
    questions.extend(RUINED.map(ruined));
    questions.extend(rows_and_columns());
    questions.extend(tile_rows());
    questions.extend(buffers());
    questions.extend(absent_rows());
    questions.extend(records());
    questions.extend(widths());
    questions.extend(orders());
    questions.extend(read_orders());
    questions
}

/// Four columns in two rows of a frame of 25 columns and 38 rows, whose rows have 32 cells.
fn base() -> SaveQuestion {
    SaveQuestion::new(
        frame(200, 300),
        place([3, 7], [6, 8]),
        record::bytes(block::PLAIN),
    )
}

/// The base with superblocks of 64 samples, for which half the table is absent.
fn small_superblocks(superblock_row: u32) -> SaveQuestion {
    base().with(|question| {
        question.frame.description.sb128 = 0;
        question.place.superblock_row = superblock_row;
    })
}

fn at(question: SaveQuestion, columns: [u32; 2], rows: [u32; 2]) -> SaveQuestion {
    question.with(|question| {
        let window = &mut question.place.window;
        [window.col_start, window.col_end] = columns;
        [window.row_start, window.row_end] = rows;
    })
}

fn passes() -> Vec<SaveQuestion> {
    [0, 1, 2, 3, 257, u32::MAX]
        .map(|pass| base().with(|question| question.place.pass = pass))
        .to_vec()
}

fn ruined(field: u32) -> SaveQuestion {
    base().with(|question| question.damage = Damage::ruin(field))
}

/// 16 rows and 17, cut or not; ends before their starts; the stride and one past it.
fn rows_and_columns() -> Vec<SaveQuestion> {
    let mut questions = Vec::new();
    questions.extend(ROWS.map(|rows| at(base(), [3, 7], rows)));
    questions.extend(COLUMNS.map(|columns| at(base(), columns, [6, 8])));
    questions
}

/// With one tile thread any tile row is taken as the first.
fn tile_rows() -> Vec<SaveQuestion> {
    let mut questions = Vec::new();
    for (threads, tile_rows) in TILE_ROWS {
        let frame = FrameQuestion::sized(200, 100, [2, threads, 1]);
        let question = SaveQuestion::new(frame, place([3, 7], [6, 8]), base().filler);
        questions.extend(
            tile_rows.iter().map(|&tile_row| {
                question.with(|question| question.place.window.tile_row = tile_row)
            }),
        );
    }
    questions
}

/// Buffers a byte short, also where no row is walked; and those of the largest frame.
fn buffers() -> Vec<SaveQuestion> {
    let none = at(base(), [3, 3], [40, 40]);
    let records = |question: SaveQuestion| question.with(|question| question.records_len -= 1);
    let field = |question: SaveQuestion| question.with(|question| question.field_len -= 1);
    let threaded = SaveQuestion::new(
        FrameQuestion::sized(120, 100, [2, 2, 2]),
        base().place,
        base().filler,
    );
    let largest = FrameQuestion::sized(16_384, 16_384, [64, 255, 255]);
    let largest = SaveQuestion::new(largest, base().place, base().filler).with(|question| {
        question.records_len = MOST_BYTES;
        question.field_len = MOST_BYTES;
    });
    vec![
        records(base()),
        field(base()),
        records(none.clone()),
        field(none),
        records(threaded.clone()),
        threaded,
        base().with(|question| question.records_len = 0),
        base().with(|question| question.field_len = 0),
        largest,
    ]
}

/// Even rows have entries up to 20, which is row 7; odd ones from 16, which is row 5.
fn absent_rows() -> Vec<SaveQuestion> {
    let [even, odd] = [0, 1].map(small_superblocks);
    vec![
        at(even.clone(), [3, 7], [0, 8]),
        at(even.clone(), [3, 7], [0, 9]),
        at(even.clone(), [3, 7], [24, 25]),
        at(odd.clone(), [3, 7], [5, 16]),
        at(odd.clone(), [3, 7], [4, 16]),
        at(odd, [3, 7], [15, 17]),
        // No column, no read.
        at(even.clone(), [7, 7], [8, 9]),
        at(even, [25, 32], [8, 9]),
    ]
}

/// Records past each limit of what is well formed, at the last read, and beside it.
fn records() -> Vec<SaveQuestion> {
    let plain = block::PLAIN;
    let far = |y, x| [Vector { y, x }, Vector { y, x }];
    let with = |record: Record| base().reading([7, 6], record::bytes(record));
    let mut questions: Vec<_> = [22, 255]
        .map(|size| with(Record { size, ..plain }))
        .to_vec();
    questions.extend([3, 4].map(|mf| with(Record { mf, ..plain })));
    for reference in [[8, -1], [-1, -1], [7, 7], [1, 8], [1, -2]] {
        questions.push(with(Record { reference, ..plain }));
    }
    for (mv, reference) in [
        (far(16_384, 0), [1, -1]),
        (far(0, -16_384), [0, 5]),
        (far(16_383, -16_383), [1, 5]),
        (far(16_384, i16::MIN), [0, 0]),
    ] {
        questions.push(with(Record {
            mv,
            reference,
            ..plain
        }));
    }
    let bad = record::bytes(Record { mf: 4, ..plain });
    questions.push(base().reading([6, 3], bad));
    // The row before and after, and the columns.
    questions.extend([[5, 3], [8, 3], [6, 2], [7, 7]].map(|cell| base().reading(cell, bad)));
    questions
}

/// Blocks that end at their limit, and one past it.
fn widths() -> Vec<SaveQuestion> {
    let wide = |columns, [y, x]: [u32; 2], size| {
        let record = Record {
            size,
            ..block::PLAIN
        };
        at(base(), columns, [6, 8]).reading([y, x], record::bytes(record))
    };
    vec![
        // Sizes 0, 3, 7 and 12 are 16, 8, 4 and 2 columns.
        wide([3, 7], [7, 5], 12),
        wide([3, 7], [7, 6], 12),
        wide([3, 7], [6, 3], 7),
        wide([3, 7], [6, 4], 7),
        wide([3, 24], [7, 17], 3),
        // From column 25 on the limit is the stride.
        wide([3, 25], [7, 24], 3),
        wide([3, 25], [7, 16], 0),
        wide([3, 25], [7, 17], 0),
        wide([3, 32], [6, 24], 0),
    ]
}

/// 12 before 1 before 3 before 4 before a read.
fn orders() -> Vec<SaveQuestion> {
    let bad = base().with(|question| question.filler[11] = 4);
    let short = bad.with(|question| question.records_len -= 1);
    let backwards = short.with(|question| question.place.window.col_end = 0);
    let damaged = backwards.with(|question| question.damage = Damage::ruin(9));
    let pass = damaged.with(|question| question.place.pass = 0);
    vec![
        bad,
        short,
        backwards.clone(),
        damaged,
        pass,
        backwards.with(|question| question.place.pass = 3),
    ]
}

/// The first bad read answers; at one read 8 comes before 9.
fn read_orders() -> Vec<SaveQuestion> {
    let rows = at(small_superblocks(0), [3, 7], [7, 9]);
    let with = |question: &SaveQuestion, x, size, mf| {
        let record = Record {
            size,
            mf,
            ..block::PLAIN
        };
        question.reading([7, x], record::bytes(record))
    };
    let odd = at(small_superblocks(1), [3, 7], [4, 6]);
    vec![
        rows.clone(),
        with(&rows, 6, 17, 4),
        with(&rows, 6, 0, 0),
        with(&rows, 6, 0, 4),
        with(&with(&rows, 4, 0, 0), 3, 17, 4),
        with(&with(&rows, 4, 17, 4), 3, 0, 0),
        // The bad record stands under the block before it.
        with(&with(&rows, 4, 17, 4), 3, 12, 0),
        odd.with(|question| question.filler[11] = 4),
    ]
}
