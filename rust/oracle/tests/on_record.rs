//! The Rust on a frame record: the same as on the frame that the record was made from, also from one
//! call to the next.

use oracle::frame;
use oracle::frame::Description;
use oracle::frame::Finished;
use oracle::load;
use oracle::paper::FrameRecord;
use oracle::record::frame_record;
use oracle::rows;
use oracle::rows::Place;
use oracle::save;
use oracle::splat;
use oracle::Window;

/// 16 cells in a row, 32 records, 1,121 in all; each reference is one behind, and so are theirs.
const FRAME: Description = Description {
    width: 100,
    height: 128,
    hint_bits: 3,
    current_hint: 2,
    temporal: 1,
    hints: [1; 7],
    ..Description::SMALLEST
};

const RECORDS: usize = 70 * 16 + 1;

const CELLS: usize = 16 * 16;

const RECORD: [u8; 12] = [5, 0, 6, 0, 0, 0, 0, 0, 1, 255, 17, 0];

fn finished() -> Finished {
    frame::setup(&FRAME, [true; 7]).gave().unwrap()
}

fn record() -> FrameRecord {
    frame_record(&FRAME, &finished())
}

const fn window(row_start: u32) -> Window {
    Window {
        tile_row: 0,
        col_start: 0,
        col_end: 13,
        row_start,
        row_end: row_start + 2,
    }
}

fn place(superblock_row: u32) -> Place {
    Place {
        col_start: 0,
        col_end: 26,
        row_start: 0,
        row_end: 32,
        superblock_row,
        tile_row: 0,
        pass: 1,
    }
}

#[test]
fn setup_without_buffers_gives_the_same_fields() {
    let without = frame::setup_without_buffers(&FRAME, [true; 7]);
    let wanted = Finished {
        records: 0,
        projection: 0,
        ..finished()
    };
    assert_eq!(without.gave(), Some(wanted));
}

#[test]
fn a_prepared_setup_can_be_called_again() {
    let mut prepared = frame::Prepared::new(&FRAME, [true; 7]);
    prepared.call();
    assert_eq!(prepared.finished(), finished());
}

#[test]
fn rows_are_those_of_the_frame() {
    let prepared = rows::Prepared::on_record(&record());
    for superblock_row in [0, 1] {
        let place = place(superblock_row);
        assert_eq!(prepared.setup(&place), rows::setup(&FRAME, &place));
    }
}

#[test]
fn splats_follow_their_table() {
    let tables = [0, 1].map(|row| rows::setup(&FRAME, &place(row)).gave().unwrap());
    let mut prepared = splat::Prepared::on_record(&record(), &tables[0]);
    prepared.set_table(&tables[1]);
    let block = splat::Block {
        by4: 16,
        bx4: 3,
        width: 2,
        height: 1,
    };
    let splatted = splat::Splatted::new(RECORD);
    assert!(prepared.try_call(&block, &splatted).gave().is_some());
    let mut bytes = vec![9; 12 * RECORDS + 1];
    prepared.take_records(&mut bytes);
    assert_eq!(bytes[12 * RECORDS..], [9]);
    assert_eq!(bytes[..12 * RECORDS], prepared.records());
    assert_eq!(bytes[12 * 3..12 * 5], [RECORD; 2].concat());
    // The second superblock row doesn't have the first one's rows.
    let above = splat::Block { by4: 0, ..block };
    assert!(prepared.try_call(&above, &splatted).gave().is_none());
}

#[test]
fn saves_follow_their_place_and_records() {
    let at = |row_start| save::Place {
        window: window(row_start),
        superblock_row: 0,
        pass: 1,
    };
    let mut records = [RECORD; RECORDS].concat();
    let mut field = vec![0; 5 * CELLS];
    let mut prepared = save::Prepared::on_record(&record(), &at(0), &records, &field);
    prepared.set_place(&at(4));
    // Row 4, column 0 is read from row 9, column 1.
    let other = [0, 0, 0, 0, 0, 0, 0, 0, 0, 255, 17, 0];
    prepared.put_record(9 * 32 + 1, other);
    records[12 * (9 * 32 + 1)..][..12].copy_from_slice(&other);
    let wanted = save::save(&FRAME, [true; 7], &at(4), &records, &field);
    assert!(prepared.try_call().gave().is_some());
    prepared.take_field(&mut field);
    assert_eq!(wanted.gave(), Some(field));
}

#[test]
fn loads_follow_their_window_and_cells() {
    let moved = [0, 0, 64, 0, 1];
    let projection = vec![0; 5 * CELLS];
    let mut field = vec![0; 5 * CELLS];
    let lent = [Some(field.as_slice()); 7];
    let mut prepared = load::Prepared::on_record(&record(), &window(0), lent, &projection);
    prepared.set_window(&window(4));
    prepared.put_cell(0, 5 * 16 + 3, moved);
    assert!(prepared.try_call().gave().is_some());
    let mut after = projection.clone();
    prepared.take_projection(&mut after);
    field[5 * (5 * 16 + 3)..][..5].copy_from_slice(&moved);
    let empty = vec![0; 5 * CELLS];
    let mut lent = [Some(empty.as_slice()); 7];
    lent[0] = Some(field.as_slice());
    let wanted = load::load(&FRAME, [true; 7], &window(4), lent, &projection);
    assert_eq!(wanted.gave(), Some(after));
}
