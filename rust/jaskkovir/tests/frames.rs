//! A frame, a row and a splat, and their refusals.

mod common;

use common::WORKED;
use jaskkovir::calls;
use jaskkovir::calls::Block;
use jaskkovir::calls::Description;
use jaskkovir::calls::Row;
use jaskkovir::refusal;
use jaskkovir::Frame;
use jaskkovir::Listed;
use jaskkovir::Tile;

const ROW: Row = Row {
    col_start: 0,
    col_end: 16,
    row_start: 0,
    row_end: 16,
    superblock_row: 0,
    tile_row: 0,
    pass: 1,
};

const BLOCK: Block = Block {
    y: 2,
    x: 4,
    width: 3,
    height: 2,
};

/// 16 x 16 samples, reference 1, vector (5, 6).
const RECORD: [u8; 12] = [5, 0, 6, 0, 0, 0, 0, 0, 1, 255, 12, 0];

fn worked() -> Frame {
    Frame::set_up(&WORKED, &[1; 7]).unwrap()
}

#[test]
fn p9_sizes() {
    let description = Description {
        width: 1920,
        height: 1080,
        ..WORKED
    };
    let frame = Frame::set_up(&description, &[1; 7]).unwrap();
    assert_eq!(frame.0[28..32], 240u32.to_le_bytes());
    let listed = frame.listed_sizes().unwrap();
    assert_eq!(
        listed,
        Listed {
            saved: 240 * 135,
            projected: 16 * 240,
            records: 16_801,
        }
    );
}

#[test]
fn bad_descriptions_are_refused() {
    let no_width = Description { width: 0, ..WORKED };
    assert_eq!(Frame::set_up(&no_width, &[1; 7]), Err(refusal::SIZE));
    let far_hint = Description {
        current_hint: 8,
        ..WORKED
    };
    assert_eq!(Frame::set_up(&far_hint, &[1; 7]), Err(refusal::HINT));
    assert_eq!(Frame::set_up(&WORKED, &[1; 6]), Err(refusal::BUFFER));
    assert_eq!(Frame::set_up(&WORKED, &[2; 7]), Err(refusal::SIZE));
}

#[test]
fn a_refusal_writes_nothing_and_more_space_is_left_alone() {
    let mut frame = [7; 120];
    let no_width = Description { width: 0, ..WORKED };
    assert_eq!(
        calls::init_frame(&no_width, &[1; 7], &mut frame),
        refusal::SIZE
    );
    assert_eq!(frame, [7; 120]);
    assert_eq!(calls::init_frame(&WORKED, &[1; 7], &mut frame), 0);
    assert_eq!(frame[..Frame::LEN], worked().0);
    assert_eq!(frame[Frame::LEN..], [7; 11]);
}

#[test]
fn a_changed_record_is_refused() {
    let mut frame = worked();
    assert_eq!(frame.check(), refusal::ACCEPTED);
    frame.0[0] = 0;
    assert_eq!(frame.check(), refusal::SIZE);
    assert_eq!(frame.listed_sizes(), Err(refusal::SIZE));
    assert_eq!(frame.tile(&ROW), Err(refusal::SIZE));
}

#[test]
fn a_row_has_its_table() {
    let tile = worked().tile(&ROW).unwrap();
    let (entries, _) = tile.0.as_chunks();
    let entry = |at: usize| u32::from_le_bytes(entries[at]);
    assert_eq!([entry(0), entry(1), entry(2)], [512, u32::MAX, 544]);
    assert_eq!(
        [entry(5), entry(6), entry(20), entry(21)],
        [0, 32, 480, u32::MAX]
    );
    // Projection, columns, rows.
    assert_eq!([entry(37), entry(39), entry(41)], [0, 16, 16]);
    let bad = |row: Row| worked().tile(&row).unwrap_err();
    assert_eq!(bad(Row { pass: 0, ..ROW }), refusal::JOB);
    assert_eq!(
        bad(Row {
            col_start: 17,
            ..ROW
        }),
        refusal::RANGE
    );
}

#[test]
fn a_splat_fills_its_block() {
    let frame = worked();
    let tile: Tile = frame.tile(&ROW).unwrap();
    let listed = frame.listed_sizes().unwrap().records as usize;
    let mut records = vec![9; 12 * listed + 1];
    assert_eq!(tile.splat(&frame, &RECORD, &BLOCK, &mut records), 0);
    for (at, record) in records.as_chunks().0.iter().enumerate() {
        let inside = (2..4).contains(&(at / 32)) && (4..7).contains(&(at % 32));
        assert_eq!(*record, if inside { RECORD } else { [9; 12] }, "{at}");
    }
    let before = records.clone();
    let outside = Block { x: 16, ..BLOCK };
    let answer = tile.splat(&frame, &RECORD, &outside, &mut records);
    assert_eq!(answer, refusal::BLOCK);
    let absent = Block {
        y: 15,
        height: 2,
        ..BLOCK
    };
    let answer = tile.splat(&frame, &RECORD, &absent, &mut records);
    assert_eq!(answer, refusal::ROW_ABSENT);
    let mut short = vec![9; 12 * listed - 1];
    let answer = tile.splat(&frame, &RECORD, &BLOCK, &mut short);
    assert_eq!(answer, refusal::BUFFER);
    assert_eq!(records, before);
}
