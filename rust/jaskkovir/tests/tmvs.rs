//! A save and a load, and their refusals.

mod common;

use common::WORKED;
use jaskkovir::calls::Block;
use jaskkovir::calls::Row;
use jaskkovir::refusal;
use jaskkovir::tmvs::load_tmvs;
use jaskkovir::tmvs::save_tmvs;
use jaskkovir::tmvs::Saving;
use jaskkovir::tmvs::Window;
use jaskkovir::Frame;

const STRIDE: usize = 16;

/// Only field 0 is lent.
const PRESENT: [u8; 7] = [1, 0, 0, 0, 0, 0, 0];

const WINDOW: Window = Window {
    tile_row: 0,
    left: 0,
    right: 8,
    top: 0,
    bottom: 8,
};

const SAVING: Saving = Saving {
    window: WINDOW,
    superblock_row: 0,
    pass: 1,
};

fn worked() -> Frame {
    Frame::set_up(&WORKED, &PRESENT).unwrap()
}

/// The saved field, empty but for row 2, column 3.
fn field(cell: [u8; 5]) -> Vec<u8> {
    let mut cells = [[0; 5]; 8 * STRIDE];
    cells[2 * STRIDE + 3] = cell;
    cells.concat()
}

fn load(window: &Window, present: &[u8], field: &[u8], projection: &mut [u8]) -> u8 {
    let fields = [field, &[], &[], &[], &[], &[], &[]];
    load_tmvs(&worked().0, window, present, fields, projection)
}

#[test]
fn the_worked_load_lands() {
    let moved = [0, 0, 64, 0, 1];
    let mut projection = vec![9; 5 * 16 * STRIDE + 2];
    let answer = load(&WINDOW, &PRESENT, &field(moved), &mut projection);
    assert_eq!(answer, refusal::ACCEPTED);
    for (at, cell) in projection.as_chunks().0.iter().enumerate() {
        let wanted = match [at / STRIDE, at % STRIDE] {
            [2, 2] => moved,
            [..8, ..8] => [0, 128, 0, 128, 9],
            _ => [9; 5],
        };
        assert_eq!(*cell, wanted, "{at}");
    }
    assert_eq!(projection[5 * 16 * STRIDE..], [9; 2]);
}

#[test]
fn a_refused_load_writes_nothing() {
    let good = field([0, 0, 64, 0, 1]);
    let mut projection = vec![9; 5 * 16 * STRIDE];
    let mut refused = |window: Window, present: &[u8], field: &[u8]| {
        let answer = load(&window, present, field, &mut projection);
        assert!(projection.iter().all(|&byte| byte == 9));
        answer
    };
    let rows = |bottom| Window { bottom, ..WINDOW };
    assert_eq!(refused(rows(17), &PRESENT, &good), refusal::RANGE);
    assert_eq!(refused(WINDOW, &PRESENT, &good[1..]), refusal::BUFFER);
    assert_eq!(refused(WINDOW, &PRESENT[..6], &good), refusal::BUFFER);
    assert_eq!(refused(WINDOW, &[0; 7], &good), refusal::FIELD_ABSENT);
    assert_eq!(refused(WINDOW, &[2; 7], &good), refusal::SIZE);
    let bad = field([0, 16, 0, 0, 1]);
    assert_eq!(refused(WINDOW, &PRESENT, &bad), refusal::CELL);
    assert_eq!(load(&rows(16), &PRESENT, &good, &mut projection), 0);
}

/// Records that all hold one of 8 x 8 samples, with this vector to reference 1.
fn records(y: i16, x: i16) -> Vec<u8> {
    let frame = worked();
    let row = Row {
        col_start: 0,
        col_end: 16,
        row_start: 0,
        row_end: 16,
        superblock_row: 0,
        tile_row: 0,
        pass: 1,
    };
    let block = Block {
        y: 0,
        x: 0,
        width: 16,
        height: 16,
    };
    let ([y0, y1], [x0, x1]) = (y.to_le_bytes(), x.to_le_bytes());
    let record = [y0, y1, x0, x1, 0, 0, 0, 0, 1, 255, 17, 0];
    let mut records = vec![0; 12 * frame.listed_sizes().unwrap().records as usize];
    let tile = frame.tile(&row).unwrap();
    assert_eq!(tile.splat(&frame, &record, &block, &mut records), 0);
    records
}

#[test]
fn components_to_4095_are_saved() {
    for (x, saved) in [(4095, [1, 0, 255, 15, 1]), (4096, [0; 5])] {
        let mut field = vec![9; 5 * 8 * STRIDE];
        let answer = save_tmvs(&worked().0, &SAVING, &records(1, x), &mut field);
        assert_eq!(answer, refusal::ACCEPTED);
        for (at, cell) in field.as_chunks().0.iter().enumerate() {
            let wanted = if at % STRIDE < 8 { saved } else { [9; 5] };
            assert_eq!(*cell, wanted, "{at}");
        }
    }
}

#[test]
fn a_refused_save_writes_nothing() {
    let good = records(1, 1);
    let mut field = vec![9; 5 * 8 * STRIDE];
    let mut refused = |saving: Saving, records: &[u8]| {
        let answer = save_tmvs(&worked().0, &saving, records, &mut field);
        assert!(field.iter().all(|&byte| byte == 9));
        answer
    };
    let pass = |pass| Saving { pass, ..SAVING };
    assert_eq!(refused(pass(3), &good), refusal::JOB);
    assert_eq!(refused(SAVING, &good[1..]), refusal::BUFFER);
    // The table of an odd superblock row has none of these rows.
    let odd = Saving {
        superblock_row: 1,
        ..SAVING
    };
    assert_eq!(refused(odd, &good), refusal::ROW_ABSENT);
    let mut bad = good.clone();
    bad[12 * (32 + 1) + 10] = 22;
    assert_eq!(refused(SAVING, &bad), refusal::RECORD);
    // 128 samples wide, of a row of 128 samples, from the second cell on.
    bad[12 * (32 + 3) + 10] = 0;
    bad[12 * (32 + 1) + 10] = 17;
    assert_eq!(refused(SAVING, &bad), refusal::LIMIT);
}
