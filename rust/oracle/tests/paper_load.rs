//! The paper's refusals of a load.

mod common;

use oracle::paper::load_answer;
use oracle::paper::FrameRecord;
use oracle::paper::Slot;
use oracle::Window;

/// The common record with references 0 and 4 used and 5 skipped.
const RECORD: FrameRecord = FrameRecord {
    use_ref_frame_mvs: 1,
    temporal: 1,
    n_mfmvs: 3,
    slots: [slot(0, Some(1)), slot(4, Some(-2)), slot(5, None)],
    ..common::RECORD
};

const fn slot(reference: u8, ref2cur: Option<i8>) -> Slot {
    Slot {
        reference,
        ref2cur,
        ref2ref: [1; 7],
    }
}

const CELLS: usize = 32 * 38;
const PROJECTION: u64 = 5 * 16 * 32;

const WINDOW: Window = Window {
    tile_row: 0,
    col_start: 9,
    col_end: 16,
    row_start: 16,
    row_end: 32,
};

/// A cell that isn't well formed.
const BAD: [u8; 5] = [0, 0, 0, 0, 8];

/// All seven fields, zero but for what was set.
struct Fields(Vec<Vec<[u8; 5]>>);

impl Fields {
    fn zero() -> Self {
        Self(vec![vec![[0; 5]; CELLS]; 7])
    }

    fn set(reference: usize, y: usize, x: usize, cell: [u8; 5]) -> Self {
        let mut fields = Self::zero();
        fields.0[reference][32 * y + x] = cell;
        fields
    }

    fn cut(mut self, reference: usize) -> Self {
        self.0[reference].pop();
        self
    }

    fn answer(&self, record: &FrameRecord, window: &Window, present: [u8; 7]) -> u8 {
        let fields = std::array::from_fn(|i| self.0[i].as_flattened());
        load_answer(record, window, present, fields, PROJECTION)
    }
}

fn answer(window: Window) -> u8 {
    Fields::zero().answer(&RECORD, &window, [1; 7])
}

#[test]
fn load_gives_1_before_3_before_4_before_5_before_7() {
    let ruined = FrameRecord { sbsz: 0, ..RECORD };
    let backwards = Window {
        row_end: 15,
        ..WINDOW
    };
    let fields = Fields::set(0, 16, 9, BAD);
    assert_eq!(fields.answer(&RECORD, &WINDOW, [1; 7]), 7);
    let absent = [1, 1, 1, 1, 0, 1, 1];
    assert_eq!(fields.answer(&RECORD, &WINDOW, absent), 5);
    let fields = fields.cut(0);
    assert_eq!(fields.answer(&RECORD, &WINDOW, absent), 4);
    assert_eq!(fields.answer(&RECORD, &backwards, absent), 3);
    assert_eq!(fields.answer(&ruined, &backwards, absent), 1);
    assert_eq!(fields.answer(&RECORD, &backwards, [1, 1, 2, 1, 1, 1, 1]), 1);
}

#[test]
fn windows_have_limits() {
    assert_eq!(answer(WINDOW), 0);
    let rows = |row_start, row_end| {
        answer(Window {
            row_start,
            row_end,
            ..WINDOW
        })
    };
    assert_eq!((rows(36, 52), rows(36, 53)), (0, 3));
    assert_eq!((rows(36, 36), rows(36, 35)), (0, 3));
    assert_eq!((rows(u32::MAX, u32::MAX), rows(0, u32::MAX)), (0, 3));
    let columns = |col_start, col_end| {
        answer(Window {
            col_start,
            col_end,
            ..WINDOW
        })
    };
    assert_eq!((columns(0, 32), columns(0, 33)), (0, 3));
    assert_eq!((columns(9, 9), columns(9, 8)), (0, 3));
    assert_eq!((columns(32, 32), columns(0, u32::MAX)), (0, 3));
}

#[test]
fn a_tile_row_counts_with_more_than_one_tile_thread() {
    let threaded = FrameRecord {
        n_blocks: 96,
        n_tile_threads: 2,
        ..RECORD
    };
    for (tile_row, expected) in [(2, 0), (3, 3), (u32::MAX, 3)] {
        let window = Window { tile_row, ..WINDOW };
        assert_eq!(answer(window), 0);
        let fields = Fields::zero();
        let fields = std::array::from_fn(|i| fields.0[i].as_flattened());
        assert_eq!(
            load_answer(&threaded, &window, [1; 7], fields, 3 * PROJECTION),
            expected
        );
    }
}

#[test]
fn buffers_that_are_used_have_their_size() {
    let fields = Fields::zero();
    let fields = std::array::from_fn(|i| fields.0[i].as_flattened());
    let lent = |len| load_answer(&RECORD, &WINDOW, [1; 7], fields, len);
    assert_eq!((lent(PROJECTION), lent(PROJECTION - 1)), (0, 4));
    for (reference, expected) in [(0, 4), (1, 0), (4, 4), (5, 0)] {
        let short = Fields::zero().cut(reference);
        assert_eq!(short.answer(&RECORD, &WINDOW, [1; 7]), expected);
    }
    // A field that isn't lent isn't short.
    let short = Fields::zero().cut(4);
    assert_eq!(short.answer(&RECORD, &WINDOW, [1, 1, 1, 1, 0, 1, 1]), 5);
}

#[test]
fn only_used_references_are_lent() {
    let zero = Fields::zero();
    assert_eq!(zero.answer(&RECORD, &WINDOW, [1, 0, 0, 0, 1, 0, 0]), 0);
    assert_eq!(zero.answer(&RECORD, &WINDOW, [0, 1, 1, 1, 1, 1, 1]), 5);
    let one = FrameRecord {
        n_mfmvs: 1,
        ..RECORD
    };
    assert_eq!(zero.answer(&one, &WINDOW, [1, 0, 0, 0, 0, 0, 0]), 0);
    // Selected references count even where no row is walked.
    let none = Window {
        row_end: 16,
        ..WINDOW
    };
    assert_eq!(zero.answer(&RECORD, &none, [0; 7]), 5);
}

#[test]
fn sources_are_the_cells_that_are_read() {
    let with = |reference, y, x| Fields::set(reference, y, x, BAD).answer(&RECORD, &WINDOW, [1; 7]);
    // Columns 1 to 23, rows 16 to 31.
    for (y, x, expected) in [
        (16, 1, 7),
        (16, 0, 0),
        (31, 23, 7),
        (31, 24, 0),
        (15, 9, 0),
        (32, 9, 0),
    ] {
        assert_eq!(with(4, y, x), expected, "row {y}, column {x}");
    }
    assert_eq!((with(5, 16, 9), with(1, 16, 9)), (0, 0));
    // The last column that the frame has is 24, and the last row 37.
    let last = Window {
        col_end: 32,
        row_start: 30,
        row_end: 40,
        ..WINDOW
    };
    for (y, x, expected) in [(37, 24, 7), (37, 25, 0), (30, 31, 0)] {
        let fields = Fields::set(0, y, x, BAD);
        assert_eq!(fields.answer(&RECORD, &last, [1; 7]), expected);
    }
}

#[test]
fn cells_are_well_formed_at_their_limits() {
    let with = |y: i16, x: i16, reference: i8| {
        let ([y0, y1], [x0, x1]) = (y.to_le_bytes(), x.to_le_bytes());
        let cell = [y0, y1, x0, x1, reference as u8];
        Fields::set(0, 16, 9, cell).answer(&RECORD, &WINDOW, [1; 7])
    };
    assert_eq!((with(4095, -4095, 1), with(-4095, 4095, 7)), (0, 0));
    for [y, x] in [[4096, 0], [0, 4096], [-4096, 0], [0, -4096], [i16::MIN; 2]] {
        assert_eq!((with(y, x, 1), with(y, x, 0)), (7, 0));
    }
    for reference in [8, -1, i8::MIN] {
        assert_eq!(with(0, 0, reference), 7);
    }
}
