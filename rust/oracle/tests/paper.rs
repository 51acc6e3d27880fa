//! The paper's refusals at their limits, and what it accepts beside the Rust.

mod common;

use common::RECORD;
use oracle::frame;
use oracle::frame::Description;
use oracle::paper::record_answer;
use oracle::paper::rows_answer;
use oracle::paper::setup_answer;
use oracle::paper::splat_answer;
use oracle::paper::FrameRecord;
use oracle::paper::HintFields;
use oracle::paper::RowTable;
use oracle::paper::Slot;
use oracle::rows::Place;
use oracle::splat::Block;

/// The largest of everything.
const LARGEST: Description = Description {
    width: 16_384,
    height: 16_384,
    sb128: 1,
    hint_bits: 8,
    current_hint: 255,
    tile_rows: 64,
    tile_threads: 255,
    frame_threads: 255,
    temporal: 1,
    hints: [255; 7],
    hints_by_ref: [[255; 7]; 7],
};

const PLACE: Place = Place {
    col_start: 0,
    col_end: 50,
    row_start: 0,
    row_end: 76,
    superblock_row: 0,
    tile_row: 0,
    pass: 1,
};

const BLOCK: Block = Block {
    by4: 4,
    bx4: 8,
    width: 4,
    height: 2,
};

/// Entries 5 to 20, one row of records after the other.
fn table() -> RowTable {
    let offset = |at: usize| (5..21).contains(&at).then(|| 64 * (at as u32 - 5));
    RowTable {
        entries: std::array::from_fn(offset),
        projection: 0,
        col_start: 0,
        col_end: 50,
        row_start: 0,
        row_end: 76,
    }
}

const BYTES: [u8; 12] = [0, 0, 0, 0, 0, 0, 0, 0, 1, 255, 12, 0];

const BUFFER: u64 = 12 * 2241;

#[test]
fn the_rust_sets_up_what_the_paper_accepts() {
    for description in [Description::SMALLEST, LARGEST] {
        assert_eq!(setup_answer(&description, [1; 7]), 0);
        assert!(frame::setup(&description, [true; 7]).gave().is_some());
    }
}

fn changed<T>(mut it: T, change: fn(&mut T)) -> T {
    change(&mut it);
    it
}

fn changed_answer(description: Description, change: fn(&mut Description)) -> u8 {
    setup_answer(&changed(description, change), [0; 7])
}

#[test]
fn sizes_and_flags_are_refused_past_their_limits() {
    let below: [fn(&mut Description); 5] = [
        |it| it.width -= 1,
        |it| it.height -= 1,
        |it| it.tile_rows -= 1,
        |it| it.tile_threads -= 1,
        |it| it.frame_threads -= 1,
    ];
    for change in below {
        assert_eq!(changed_answer(Description::SMALLEST, change), 1);
    }
    let above: [fn(&mut Description); 7] = [
        |it| it.width += 1,
        |it| it.height += 1,
        |it| it.tile_rows += 1,
        |it| it.tile_threads += 1,
        |it| it.frame_threads += 1,
        |it| it.sb128 += 1,
        |it| it.temporal += 1,
    ];
    for change in above {
        assert_eq!(changed_answer(LARGEST, change), 1);
    }
    assert_eq!(setup_answer(&LARGEST, [0, 0, 0, 0, 0, 0, 2]), 1);
}

#[test]
fn hints_are_refused_past_their_limits() {
    assert_eq!(changed_answer(LARGEST, |it| it.hint_bits += 1), 2);
    assert_eq!(changed_answer(LARGEST, |it| it.current_hint += 1), 2);
    assert_eq!(
        changed_answer(Description::SMALLEST, |it| it.hints[6] += 1),
        2
    );
    assert_eq!(
        changed_answer(Description::SMALLEST, |it| it.hints_by_ref[6][6] += 1),
        2
    );
}

#[test]
fn setup_gives_1_before_2() {
    let both = Description {
        width: 0,
        hint_bits: 9,
        ..Description::SMALLEST
    };
    assert_eq!(setup_answer(&both, [0; 7]), 1);
}

#[test]
fn a_record_has_sizes_that_follow() {
    assert_eq!(record_answer(&RECORD), 0);
    let changes: [fn(&mut FrameRecord); 12] = [
        |it| it.width = 192,
        |it| it.height = 305,
        |it| it.iw4 += 1,
        |it| it.ih4 -= 1,
        |it| it.iw8 += 1,
        |it| it.ih8 -= 1,
        |it| it.sbsz = 64,
        |it| it.stride += 16,
        |it| it.tile_rows = 65,
        |it| it.n_blocks += 1,
        |it| it.n_tile_threads = 2,
        |it| it.n_frame_threads = 256,
    ];
    for change in changes {
        assert_eq!(record_answer(&changed(RECORD, change)), 1);
    }
}

/// Eight widths have the same sizes; with one tile thread nothing else follows from the tile rows.
#[test]
fn a_record_may_differ_where_no_size_follows() {
    let changes: [fn(&mut FrameRecord); 4] = [
        |it| it.width = 193,
        |it| it.sbsz = 32,
        |it| it.tile_rows = 64,
        |it| it.n_frame_threads = 255,
    ];
    for change in changes {
        assert_eq!(record_answer(&changed(RECORD, change)), 0);
    }
}

/// A record whose fields are as large as they may be, or as small.
fn full() -> FrameRecord {
    let mut record = RECORD;
    record.use_ref_frame_mvs = 1;
    record.temporal = 1;
    record.n_mfmvs = 3;
    record.hints[6] = HintFields {
        sign_bias: 1,
        mfmv_sign: 1,
        pocdiff: -31,
    };
    record.slots[1].ref2cur = None;
    record.slots[2] = Slot {
        reference: 6,
        ref2cur: Some(31),
        ref2ref: [31; 7],
    };
    record
}

#[test]
fn a_record_has_fields_in_their_ranges() {
    assert_eq!(record_answer(&full()), 0);
    let changes: [fn(&mut FrameRecord); 11] = [
        |it| it.use_ref_frame_mvs += 1,
        |it| it.temporal += 1,
        |it| it.n_mfmvs += 1,
        |it| it.hints[6].sign_bias += 1,
        |it| it.hints[6].mfmv_sign += 1,
        |it| it.hints[6].pocdiff -= 1,
        |it| it.slots[0].reference = 2,
        |it| it.slots[0].reference = 3,
        |it| it.slots[2].reference += 1,
        |it| it.slots[2].ref2cur = Some(32),
        |it| it.slots[2].ref2ref[6] += 1,
    ];
    for change in changes {
        assert_eq!(record_answer(&changed(full(), change)), 1);
    }
}

#[test]
fn rows_give_12_before_1_before_3() {
    let bad_record = FrameRecord { sbsz: 0, ..RECORD };
    let backwards = Place {
        row_start: 77,
        ..PLACE
    };
    let bad_pass = Place {
        pass: 3,
        ..backwards
    };
    assert_eq!(rows_answer(&RECORD, &PLACE), 0);
    assert_eq!(rows_answer(&RECORD, &backwards), 3);
    assert_eq!(rows_answer(&bad_record, &backwards), 1);
    assert_eq!(rows_answer(&bad_record, &bad_pass), 12);
}

#[test]
fn a_tile_row_counts_with_more_than_one_tile_thread() {
    let threaded = FrameRecord {
        n_blocks: 96,
        n_tile_threads: 2,
        ..RECORD
    };
    for (tile_row, answer) in [(2, 0), (3, 3)] {
        let place = Place { tile_row, ..PLACE };
        assert_eq!(rows_answer(&threaded, &place), answer);
        assert_eq!(rows_answer(&RECORD, &place), 0);
    }
}

#[test]
fn splat_gives_1_before_10_before_4_before_6() {
    let bad_record = FrameRecord { sbsz: 0, ..RECORD };
    let absent = Block { by4: 15, ..BLOCK };
    let wide = Block {
        width: 33,
        ..absent
    };
    let answer = |record, block, len| splat_answer(record, &table(), block, BYTES, len);
    assert_eq!(answer(&RECORD, &BLOCK, BUFFER), 0);
    assert_eq!(answer(&RECORD, &absent, BUFFER), 6);
    assert_eq!(answer(&RECORD, &absent, BUFFER - 1), 4);
    assert_eq!(answer(&RECORD, &wide, BUFFER - 1), 10);
    assert_eq!(answer(&bad_record, &wide, BUFFER - 1), 1);
}

#[test]
fn splat_takes_its_rows_in_order() {
    let rows = |first, second| {
        let mut table = table();
        [table.entries[9], table.entries[10]] = [first, second];
        splat_answer(&RECORD, &table, &BLOCK, BYTES, BUFFER)
    };
    // The block's last column is 8 + 4 past an entry.
    let [last, past] = [2229, 2230].map(Some);
    assert_eq!(rows(last, Some(0)), 0);
    assert_eq!(rows(last, past), 4);
    assert_eq!(rows(last, None), 6);
    assert_eq!(rows(past, None), 4);
    assert_eq!(rows(None, past), 6);
}

/// A tile that ends past the frame; row setup gives no such table.
#[test]
fn splat_refuses_a_tile_past_the_frame() {
    let ends = |col_end, row_end| {
        let table = RowTable {
            col_end,
            row_end,
            ..table()
        };
        splat_answer(&RECORD, &table, &BLOCK, BYTES, BUFFER)
    };
    assert_eq!(ends(50, 76), 0);
    assert_eq!(ends(51, 76), 10);
    assert_eq!(ends(50, 77), 10);
}

#[test]
fn splat_wants_a_well_formed_record() {
    let with = |at: usize, byte: u8| {
        let mut bytes = BYTES;
        bytes[at] = byte;
        splat_answer(&RECORD, &table(), &BLOCK, bytes, BUFFER)
    };
    // First reference, second, size, mf.
    let limits = [(8, 7, 8), (9, 7, 8), (10, 21, 22), (11, 3, 4)];
    for (at, last, next) in limits {
        assert_eq!((with(at, last), with(at, next)), (0, 10), "byte {at}");
    }
    assert_eq!((with(8, 0), with(8, 255)), (0, 10));
    assert_eq!((with(9, 255), with(9, 254)), (0, 10));
    // The first vector has a reference and may not come to 64 x 256; the second has none.
    assert_eq!((with(1, 63), with(1, 64)), (0, 10));
    assert_eq!((with(3, 63), with(3, 64)), (0, 10));
    assert_eq!((with(5, 64), with(7, 64)), (0, 0));
}
