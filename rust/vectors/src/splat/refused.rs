//! Splats at the limits of what is accepted.

use crate::damage::Damage;
use crate::question::FrameQuestion;
use crate::record;
use crate::record::RECORD_LEN;
use crate::row::RowQuestion;
use crate::splat::question::block;
use crate::splat::question::listed_records;
use crate::splat::question::EntryDamage;
use crate::splat::question::SplatQuestion;
use oracle::leaves::Record;
use oracle::leaves::Vector;

/// Each limit of a splat with its neighbours; those inside it are accepted.
pub fn questions() -> Vec<SplatQuestion> {
    let mut questions = Vec::new();
    questions.extend(sides());
    questions.extend(origins());
    questions.extend(row_width());
    questions.extend(records().into_iter().map(splatted));
    questions.extend(buffers());
    questions.extend(entries_past_the_table());
    questions.extend(absent_entries());
    questions.extend(entries_past_the_buffer());
    questions.extend(Damage::FIELDS.map(|field| ruined(base(), field)));
    questions.extend(orders());
    questions.extend(row_orders());
    questions
}

/// A block of 4 x 2 at row 4, column 8 of a frame of 50 x 76 whose rows hold 64 records, with
/// superblocks of 128 samples.
fn base() -> SplatQuestion {
    let frame =
        FrameQuestion::sized(200, 300, [1; 3]).with(|question| question.description.sb128 = 1);
    SplatQuestion::new(
        RowQuestion::first_of(frame),
        block([4, 8], [4, 2]),
        record::bytes(record::PLAIN),
    )
}

/// The base with superblocks of 64 samples, for which half the table is absent.
fn small_superblocks(superblock_row: u32) -> SplatQuestion {
    base().with(|question| {
        question.row.frame.description.sb128 = 0;
        question.row.place.superblock_row = superblock_row;
    })
}

fn at(question: SplatQuestion, origin: [u32; 2], sides: [u32; 2]) -> SplatQuestion {
    question.with(|question| question.block = block(origin, sides))
}

fn sides() -> Vec<SplatQuestion> {
    let mut questions = Vec::new();
    for side in [0, 1, 2, 31, 32, 33, 64, 256, 260, u32::MAX] {
        questions.push(at(base(), [0, 8], [side, 2]));
        questions.push(at(base(), [0, 8], [4, side]));
    }
    questions
}

/// The first and last place of a tile, and those beside it.
fn origins() -> Vec<SplatQuestion> {
    let tiled = base().with(|question| {
        let place = &mut question.row.place;
        [place.col_start, place.col_end] = [8, 40];
        [place.row_start, place.row_end] = [4, 28];
    });
    let mut questions = Vec::new();
    questions.extend([7, 8, 39, 40, u32::MAX].map(|bx4| at(tiled, [4, bx4], [4, 2])));
    questions.extend([3, 4, 27, 28, u32::MAX].map(|by4| at(tiled, [by4, 8], [4, 2])));
    // Tiles that end past the frame are cut; empty ones have no place at all.
    questions.extend(
        [49, 50].map(|bx4| {
            at(base(), [4, bx4], [4, 2]).with(|question| question.row.place.col_end = 60)
        }),
    );
    questions.extend(
        [75, 76].map(|by4| {
            at(base(), [by4, 8], [4, 2]).with(|question| question.row.place.row_end = 90)
        }),
    );
    questions.push(base().with(|question| question.row.place.col_start = 50));
    questions.push(base().with(|question| {
        let place = &mut question.row.place;
        [place.row_start, place.row_end] = [4, 4];
    }));
    questions
}

/// The last record of a row, and one past it.
fn row_width() -> Vec<SplatQuestion> {
    let mut questions = Vec::new();
    questions.extend([14, 15, 16].map(|width| at(base(), [4, 49], [width, 2])));
    questions.extend([30, 31, 32].map(|width| at(base(), [4, 33], [width, 2])));
    let full = base().with(|question| {
        question.row.frame.description.width = 256;
        question.row.place.col_end = 64;
    });
    questions.extend([1, 2].map(|width| at(full, [4, 63], [width, 2])));
    questions
}

fn splatted(record: Record) -> SplatQuestion {
    base().with(|question| question.record = record::bytes(record))
}

/// Records at the limits of what is well formed.
fn records() -> Vec<Record> {
    let plain = record::PLAIN;
    let mut records = Vec::new();
    records.extend([0, 21, 22, 127].map(|size| Record { size, ..plain }));
    records.extend([0, 3, 4, 255].map(|mf| Record { mf, ..plain }));
    for reference in [-128, -2, -1, 0, 1, 7, 8, 127] {
        records.push(Record {
            reference: [reference, 7],
            ..plain
        });
        records.push(Record {
            reference: [1, reference],
            ..plain
        });
    }
    for reference in [[1, 7], [7, 1], [0, 4], [4, 0], [4, -1], [0, 0], [0, -1]] {
        records.extend(vectors_at_limits(reference));
    }
    records
}

/// Each of the four components alone at each limit.
fn vectors_at_limits(reference: [i8; 2]) -> Vec<Record> {
    let mut records = Vec::new();
    for component in [16_383, 16_384, -16_383, -16_384, i16::MIN] {
        for which in 0..2 {
            let rest = Vector { y: 1, x: 1 };
            let y = Vector {
                y: component,
                ..rest
            };
            let x = Vector {
                x: component,
                ..rest
            };
            records.extend([y, x].map(|changed| {
                let mut mv = [rest; 2];
                mv[which] = changed;
                Record {
                    mv,
                    reference,
                    ..record::PLAIN
                }
            }));
        }
    }
    records
}

/// Buffers of the listed size, with a byte less, and longer.
fn buffers() -> Vec<SplatQuestion> {
    let mut questions = Vec::new();
    for counts in [[1, 1, 1], [2, 1, 1], [2, 2, 1], [1, 1, 2], [1, 255, 255]] {
        let row = RowQuestion::first_of(FrameQuestion::sized(200, 100, counts));
        let question = SplatQuestion::new(row, base().block, base().record);
        let listed = question.buffer_len;
        let lens = [
            0,
            RECORD_LEN,
            listed - RECORD_LEN,
            listed - 1,
            listed,
            listed + 1,
        ];
        questions.extend(lens.map(|len| question.with(|question| question.buffer_len = len)));
        questions.push(question.with(|question| question.buffer_len = 60_000));
    }
    questions
}

/// The last entry of the table, and rows past it.
fn entries_past_the_table() -> Vec<SplatQuestion> {
    let blocks = [
        [31, 1],
        [31, 2],
        [31, 32],
        [0, 32],
        [1, 31],
        [1, 32],
        [63, 1],
        [63, 2],
    ];
    blocks
        .map(|[by4, height]| at(base(), [by4, 8], [4, height]))
        .to_vec()
}

fn absent_entries() -> Vec<SplatQuestion> {
    let mut questions = Vec::new();
    // Even rows have the entries up to 20, odd ones from 21 and those of the rows above.
    for [by4, height] in [[15, 1], [15, 2], [14, 2], [16, 1], [31, 1], [32, 1]] {
        questions.push(at(small_superblocks(0), [by4, 8], [4, height]));
    }
    for [by4, height] in [
        [16, 1],
        [15, 1],
        [14, 1],
        [14, 2],
        [10, 1],
        [11, 2],
        [0, 32],
        [31, 2],
    ] {
        questions.push(at(small_superblocks(1), [by4, 8], [4, height]));
    }
    // Entries 9 and 10 are the block's own.
    questions.extend(
        [8, 9, 10, 11]
            .map(|entry| base().with(|question| question.entry = EntryDamage::absent(entry))),
    );
    questions
}

/// A row whose last record is the last listed one, and rows past it, also in a longer buffer.
fn entries_past_the_buffer() -> Vec<SplatQuestion> {
    let block = base().block;
    let last = listed_records(&base().row) - block.bx4 - block.width;
    let mut questions = Vec::new();
    for entry in [9, 10] {
        for value in [last - 1, last, last + 1, last + 12, u32::MAX - 1] {
            let moved = base().with(|question| question.entry = EntryDamage { entry, value });
            questions.push(moved);
            questions.push(moved.with(|question| question.buffer_len = 60_000));
        }
    }
    questions
}

fn ruined(question: SplatQuestion, field: u32) -> SplatQuestion {
    question.with(|question| question.row.damage = Damage::ruin(field))
}

/// 1 before 10 before 4 before 6: two, three and four of them at once.
fn orders() -> Vec<SplatQuestion> {
    let wide = |question: SplatQuestion| question.with(|question| question.block.width = 33);
    let short = |question: SplatQuestion| question.with(|question| question.buffer_len -= 1);
    let absent = base().with(|question| question.entry = EntryDamage::absent(9));
    vec![
        short(absent),
        wide(absent),
        wide(short(base())),
        wide(short(absent)),
        ruined(absent, 12),
        ruined(short(base()), 12),
        ruined(wide(base()), 12),
        ruined(wide(short(absent)), 12),
        ruined(wide(short(absent)), 37),
    ]
}

/// A row that is past the buffer and one that is absent, in either order, after good rows or none.
fn row_orders() -> Vec<SplatQuestion> {
    let past = |question: SplatQuestion, entry: u32| {
        let value = listed_records(&question.row);
        question.with(|question| question.entry = EntryDamage { entry, value })
    };
    vec![
        // Entry 20 is past the buffer, and 21 absent.
        past(at(small_superblocks(0), [15, 8], [4, 2]), 20),
        past(at(small_superblocks(0), [13, 8], [4, 4]), 20),
        // Entry 19 is absent, and 20 past the buffer.
        past(at(small_superblocks(1), [14, 8], [4, 2]), 20),
        past(at(small_superblocks(1), [13, 8], [4, 3]), 20),
    ]
}
