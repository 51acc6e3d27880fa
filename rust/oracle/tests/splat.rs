//! Splat as the Rust does it.

use oracle::frame::Description;
use oracle::rows;
use oracle::rows::Place;
use oracle::rows::Table;
use oracle::splat::splat;
use oracle::splat::Block;
use oracle::splat::Prepared;
use oracle::splat::Splatted;
use oracle::Outcome;
use oracle::Outcome::Gave;
use oracle::Outcome::Panicked;

/// 32 records in a row, 1,121 in all.
const FRAME: Description = Description {
    width: 128,
    height: 128,
    ..Description::SMALLEST
};

const RECORD: [u8; 12] = [1, 2, 3, 4, 5, 6, 7, 8, 1, 255, 12, 3];

fn table(superblock_row: u32) -> Table {
    let place = Place {
        col_start: 0,
        col_end: 32,
        row_start: 0,
        row_end: 32,
        superblock_row,
        tile_row: 0,
        pass: 1,
    };
    rows::setup(&FRAME, &place).gave().unwrap()
}

fn written(table: &Table, [by4, bx4]: [u32; 2], [width, height]: [u32; 2]) -> Outcome<Vec<usize>> {
    let block = Block {
        by4,
        bx4,
        width,
        height,
    };
    splat(&FRAME, table, &block, RECORD)
}

#[test]
fn rows_of_the_block_are_written() {
    assert_eq!(
        written(&table(0), [2, 30], [2, 3]),
        Gave(vec![94, 95, 126, 127, 158, 159])
    );
    let whole = (0..16 * 32).collect();
    assert_eq!(written(&table(0), [0, 0], [32, 16]), Gave(whole));
}

#[test]
fn rows_above_are_written_too() {
    // Entry 16 of an odd row, which stands where the even row has the superblock's row 11.
    assert_eq!(written(&table(1), [11, 0], [1, 1]), Gave(vec![11 * 32]));
}

#[test]
fn an_absent_row_is_told() {
    assert_eq!(written(&table(0), [15, 0], [1, 2]), Panicked);
    assert_eq!(
        written(&table(1), [15, 0], [1, 2])
            .gave()
            .map(|places| places.len()),
        Some(2)
    );
    assert_eq!(written(&table(1), [31, 0], [1, 2]), Panicked);
}

/// The Rust takes an entry at the very last record as absent, since only padding stands there. The
/// paper lists that record, and accepts a block of one record at column 0 of such an entry. No
/// table that row setup gives has one.
#[test]
fn an_entry_at_the_last_record_is_absent_for_the_rust() {
    let at = |offset| {
        let mut table = table(0);
        table.entries[5] = Some(offset);
        table
    };
    assert_eq!(written(&at(1119), [0, 0], [2, 1]), Gave(vec![1119, 1120]));
    assert_eq!(written(&at(1119), [0, 1], [1, 1]), Gave(vec![1120]));
    assert_eq!(written(&at(1119), [0, 1], [2, 1]), Panicked);
    assert_eq!(written(&at(1120), [0, 0], [1, 1]), Panicked);
}

#[test]
fn a_prepared_splat_can_be_called_again() {
    let mut prepared = Prepared::new(&FRAME, &table(0));
    prepared.put_records(&[0; 12 * 1121]);
    let block = Block {
        by4: 0,
        bx4: 1,
        width: 1,
        height: 1,
    };
    for record in [RECORD, [0; 12], RECORD] {
        prepared.call(&block, &Splatted::new(record));
        let records = prepared.records();
        assert_eq!(records[..12], [0; 12]);
        assert_eq!(records[12..24], record);
        assert_eq!(records.len(), 12 * 1121);
    }
}
