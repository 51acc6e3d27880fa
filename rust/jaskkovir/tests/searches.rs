//! A search, its refusals, and what it leaves.

mod common;

use common::WORKED;
use jaskkovir::calls;
use jaskkovir::calls::Block;
use jaskkovir::calls::Row;
use jaskkovir::calls::Searched;
use jaskkovir::calls::FOUND_LEN;
use jaskkovir::calls::STACK_LEN;
use jaskkovir::leaves::Vector;
use jaskkovir::refusal;
use jaskkovir::Ask;
use jaskkovir::Frame;
use jaskkovir::Global;
use jaskkovir::Tile;

const ROW: Row = Row {
    col_start: 0,
    col_end: 16,
    row_start: 0,
    row_end: 16,
    superblock_row: 0,
    tile_row: 0,
    pass: 1,
};

const GLOBAL: Global = Global {
    vector: Vector { y: 3, x: -4 },
    above: 0,
};

/// 16 x 16 samples at row 4, column 0, for reference 1.
const ASK: Ask = Ask {
    references: [1, -1],
    size: 12,
    above_right: 0,
    y: 4,
    x: 0,
    globals: [GLOBAL; 2],
    integer: 0,
    hp: 1,
};

/// The same size with reference 1, vector (5, 6) and a new vector.
const RECORD: [u8; 12] = [5, 0, 6, 0, 0, 0, 0, 0, 1, 255, 12, 2];

struct Lent {
    frame: Frame,
    tile: Tile,
    records: Vec<u8>,
    projection: Vec<u8>,
}

/// The record lies above the block; no cell is there.
fn lent() -> Lent {
    let frame = Frame::set_up(&WORKED, &[1; 7]).unwrap();
    let listed = frame.listed_sizes().unwrap();
    let tile = frame.tile(&ROW).unwrap();
    let mut records = vec![0; 12 * listed.records as usize];
    let above = Block {
        y: 0,
        x: 0,
        width: 4,
        height: 4,
    };
    assert_eq!(tile.splat(&frame, &RECORD, &above, &mut records), 0);
    Lent {
        frame,
        tile,
        records,
        projection: [0, 128, 0, 128, 0].repeat(listed.projected as usize),
    }
}

fn find(lent: &Lent, ask: &Ask) -> (u8, [u8; STACK_LEN], [u8; FOUND_LEN]) {
    let (mut stack, mut found) = ([9; STACK_LEN], [9; FOUND_LEN]);
    let searched = Searched {
        frame: &lent.frame.0,
        tile: &lent.tile.0,
        records: &lent.records,
        projection: &lent.projection,
    };
    let answer = calls::find(&searched, &ask.to_bytes(), &mut stack, &mut found);
    (answer, stack, found)
}

#[test]
fn a_neighbour_is_found() {
    let (answer, stack, found) = find(&lent(), &ASK);
    // One side matches, with a new vector, and nothing is projected: 3 * 16 + 8 + 2.
    assert_eq!((answer, found), (0, [1, 58]));
    // Four places in two rows, and 640; then the global vector.
    let first = [5, 0, 6, 0, 9, 9, 9, 9, 144, 2, 0, 0];
    let second = [3, 0, 252, 255, 9, 9, 9, 9, 9, 9, 9, 9];
    assert_eq!(stack[..24], [first, second].concat());
    assert_eq!(stack[24..], [9; STACK_LEN - 24]);
}

#[test]
fn a_refusal_writes_nothing() {
    let answer = |ask: Ask| {
        let (answer, stack, found) = find(&lent(), &ask);
        assert_eq!((stack, found), ([9; STACK_LEN], [9; FOUND_LEN]));
        answer
    };
    assert_eq!(answer(Ask { hp: 2, ..ASK }), refusal::SIZE);
    assert_eq!(answer(Ask { size: 22, ..ASK }), refusal::BLOCK);
    assert_eq!(answer(Ask { y: 16, ..ASK }), refusal::BLOCK);
    assert_eq!(
        answer(Ask {
            references: [0, -1],
            ..ASK
        }),
        refusal::BLOCK
    );
}

#[test]
fn an_ask_comes_back_from_its_bytes() {
    let bytes = std::array::from_fn(|at| (100 + 7 * at) as u8);
    assert_eq!(Ask::from_bytes(&bytes).to_bytes(), bytes);
    assert_eq!(
        ASK.to_bytes(),
        [1, 255, 12, 0, 4, 0, 0, 0, 0, 0, 0, 0, 3, 0, 252, 255, 0, 3, 0, 252, 255, 0, 0, 1]
    );
}
