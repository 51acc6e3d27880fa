//! Which refusals the paper gives a search, and in which order.

mod common;

use common::RECORD;
use oracle::leaves::Vector;
use oracle::paper::search;
use oracle::paper::FrameRecord;
use oracle::paper::Lent;
use oracle::paper::RowTable;
use oracle::search::Ask;
use oracle::search::Global;

/// An intra block of 8 x 8 samples.
const INTRA: [u8; 12] = [0, 128, 0, 128, 0, 0, 0, 0, 0, 255, 17, 0];

const INVALID: [u8; 5] = [0, 128, 0, 128, 0];

/// 16 x 16 samples; its row above is entry 8, its column left entries 9 to 12.
const ASK: Ask = Ask {
    references: [1, -1],
    size: 12,
    above_right: 0,
    by4: 4,
    bx4: 8,
    globals: [Global::NONE; 2],
    integer: 0,
    hp: 1,
};

/// What is lent; a copy is changed by each question.
#[derive(Clone)]
struct Parts {
    record: FrameRecord,
    table: RowTable,
    records: Vec<u8>,
    projection: Vec<u8>,
}

/// Entries 5 to 20, one row of 64 records after the other. Temporal search is on.
fn parts() -> Parts {
    let offset = |at: usize| (5..21).contains(&at).then(|| 64 * (at as u32 - 5));
    Parts {
        record: FrameRecord {
            use_ref_frame_mvs: 1,
            ..RECORD
        },
        table: RowTable {
            entries: std::array::from_fn(offset),
            projection: 0,
            col_start: 0,
            col_end: 50,
            row_start: 0,
            row_end: 76,
        },
        records: [INTRA; 2241].concat(),
        projection: [INVALID; 512].concat(),
    }
}

impl Parts {
    fn answer(&self, ask: &Ask) -> u8 {
        let lent = Lent {
            record: &self.record,
            table: &self.table,
            records: &self.records,
            projection: &self.projection,
        };
        search(&lent, ask).err().unwrap_or(0)
    }

    fn put(&mut self, place: usize, record: [u8; 12]) {
        self.records[12 * place..][..12].copy_from_slice(&record);
    }
}

fn asked(change: impl FnOnce(&mut Ask)) -> u8 {
    let mut ask = ASK;
    change(&mut ask);
    parts().answer(&ask)
}

fn lent(change: impl FnOnce(&mut Parts)) -> u8 {
    let mut parts = parts();
    change(&mut parts);
    parts.answer(&ASK)
}

#[test]
fn nothing_found_is_accepted() {
    assert_eq!(parts().answer(&ASK), 0);
}

#[test]
fn flags_are_0_or_1() {
    let flags: [fn(&mut Ask) -> &mut u8; 5] = [
        |ask| &mut ask.above_right,
        |ask| &mut ask.globals[0].above,
        |ask| &mut ask.globals[1].above,
        |ask| &mut ask.integer,
        |ask| &mut ask.hp,
    ];
    for flag in flags {
        for (byte, answer) in [(0, 0), (1, 0), (2, 1), (255, 1)] {
            assert_eq!(asked(|ask| *flag(ask) = byte), answer);
        }
    }
}

#[test]
fn references_are_one_or_two() {
    let answer = |references, temporal| {
        let mut parts = parts();
        parts.record.use_ref_frame_mvs = temporal;
        parts.answer(&Ask { references, ..ASK })
    };
    for references in [[1, -1], [7, -1], [1, 1], [7, 7], [5, 2]] {
        assert_eq!(answer(references, 1), 0);
    }
    for references in [[-1, -1], [8, -1], [1, 0], [0, 1], [0, 0], [1, 8], [1, -2]] {
        assert_eq!(answer(references, 1), 10);
    }
    assert_eq!([0, 1].map(|temporal| answer([0, -1], temporal)), [0, 10]);
}

#[test]
fn the_block_starts_in_its_tile() {
    assert_eq!([21, 22].map(|code| asked(|ask| ask.size = code)), [0, 10]);
    assert_eq!([49, 50].map(|bx4| asked(|ask| ask.bx4 = bx4)), [0, 10]);
    assert_eq!([75, 76].map(|by4| asked(|ask| ask.by4 = by4)), [0, 10]);
    assert_eq!(asked(|ask| ask.by4 = u32::MAX), 10);
    assert_eq!(
        [8, 9].map(|it| lent(|parts| parts.table.col_start = it)),
        [0, 10]
    );
    assert_eq!(
        [4, 5].map(|it| lent(|parts| parts.table.row_start = it)),
        [0, 10]
    );
    assert_eq!(
        [50, 51].map(|it| lent(|parts| parts.table.col_end = it)),
        [0, 10]
    );
    assert_eq!(
        [76, 77].map(|it| lent(|parts| parts.table.row_end = it)),
        [0, 10]
    );
}

#[test]
fn used_global_vectors_have_a_limit() {
    let answer = |references, at: usize, mv| {
        let mut parts = parts();
        parts.record.use_ref_frame_mvs = 0;
        let mut ask = Ask { references, ..ASK };
        ask.globals[at].mv = mv;
        parts.answer(&ask)
    };
    for (y, x) in [(16_384, 0), (0, -16_384), (i16::MIN, i16::MIN)] {
        let mv = Vector { y, x };
        assert_eq!([0, 1].map(|at| answer([1, -1], at, mv)), [10, 0]);
        assert_eq!([0, 1].map(|at| answer([1, 2], at, mv)), [10, 10]);
        assert_eq!([0, 1].map(|at| answer([0, -1], at, mv)), [0, 0]);
    }
    let most = Vector {
        y: 16_383,
        x: -16_383,
    };
    assert_eq!([0, 1].map(|at| answer([1, 2], at, most)), [0, 0]);
}

#[test]
fn listed_sizes_are_lent() {
    assert_eq!(lent(|parts| parts.records.truncate(12 * 2241 - 1)), 4);
    assert_eq!(lent(|parts| parts.projection.truncate(5 * 512 - 1)), 4);
    let without = lent(|parts| {
        parts.record.use_ref_frame_mvs = 0;
        parts.projection.clear();
    });
    assert_eq!(without, 0);
}

#[test]
fn a_read_wants_its_row_its_place_and_its_form() {
    let above = 3 * 64 + 8;
    let without = |at: usize| lent(|parts| parts.table.entries[at] = None);
    // The third row above is read too; the second isn't, nor the one below the block.
    assert_eq!([6, 8, 9, 10, 11, 12].map(without), [6; 6]);
    assert_eq!([7, 13].map(without), [0; 2]);
    assert_eq!(
        [2230, 2240].map(|it| lent(|parts| parts.table.entries[8] = Some(it))),
        [0, 4]
    );
    let longer = lent(|parts| {
        parts.table.entries[8] = Some(2240);
        parts.records.extend(INTRA);
        parts.records.extend([INTRA; 64].concat());
    });
    assert_eq!(longer, 4);
    let mut bad = INTRA;
    bad[11] = 4;
    assert_eq!(lent(|parts| parts.put(above, bad)), 8);
    // The second neighbour above is as wide as the block, or wider.
    let size = |code| {
        let mut record = INTRA;
        record[10] = code;
        lent(|parts| parts.put(above + 2, record))
    };
    assert_eq!([17, 12, 0, 22].map(size), [0, 9, 9, 8]);
}

#[test]
fn cells_are_well_formed() {
    let first = 2 * 32 + 4;
    let with =
        |cell: [u8; 5]| lent(|parts| parts.projection[5 * first..][..5].copy_from_slice(&cell));
    assert_eq!(
        [0, 1, 31, 32, 255].map(|it| with([0, 0, 0, 0, it])),
        [7, 0, 0, 7, 7]
    );
    assert_eq!(with([0, 128, 0, 128, 255]), 0);
    assert_eq!(with([255, 15, 255, 15, 1]), 0);
    assert_eq!(with([0, 16, 0, 0, 1]), 7);
    assert_eq!(with([0, 0, 0, 128, 1]), 7);
    assert_eq!(
        [0, 377, 378].map(|it| lent(|parts| parts.table.projection = it)),
        [0, 0, 4]
    );
}

/// 1, then 10, then 4; then the reads: the row above, the column left, the cells, farther rows.
#[test]
fn the_first_refusal_answers() {
    let mut parts = parts();
    let mut ask = Ask {
        hp: 2,
        size: 22,
        ..ASK
    };
    parts.records.truncate(12 * 2241 - 1);
    assert_eq!(parts.answer(&ask), 1);
    ask.hp = 1;
    assert_eq!(parts.answer(&ask), 10);
    ask.size = 12;
    assert_eq!(parts.answer(&ask), 4);
    parts.records = [INTRA; 2241].concat();
    // Entry 6 is the third row above, 9 the block's first.
    parts.table.entries[6] = None;
    parts.projection = [[0; 5]; 512].concat();
    let mut bad = INTRA;
    bad[10] = 22;
    parts.put(4 * 64 + 7, bad);
    parts.table.entries[8] = None;
    assert_eq!(parts.answer(&ask), 6);
    parts.table.entries[8] = Some(3 * 64);
    assert_eq!(parts.answer(&ask), 8);
    parts.put(4 * 64 + 7, INTRA);
    assert_eq!(parts.answer(&ask), 7);
    parts.projection = [INVALID; 512].concat();
    assert_eq!(parts.answer(&ask), 6);
    parts.table.entries[6] = Some(64);
    assert_eq!(parts.answer(&ask), 0);
}
