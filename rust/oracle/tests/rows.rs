//! Superblock-row setup as the Rust gives it.

use oracle::frame::Description;
use oracle::rows::setup;
use oracle::rows::Place;
use oracle::rows::Table;
use oracle::Outcome;

/// 50 x 76 in 4-sample units, 64 records in a row, 32 cells in a row.
const FRAME: Description = Description {
    width: 200,
    height: 300,
    tile_rows: 3,
    tile_threads: 2,
    frame_threads: 2,
    ..Description::SMALLEST
};

const PLACE: Place = Place {
    col_start: 0,
    col_end: 50,
    row_start: 0,
    row_end: 76,
    superblock_row: 0,
    tile_row: 0,
    pass: 1,
};

fn table(description: Description, place: Place) -> Table {
    setup(&description, &place).gave().unwrap()
}

fn present(table: &Table) -> Vec<usize> {
    let there = |&at: &usize| table.entries[at].is_some();
    (0..37).filter(there).collect()
}

/// The three rows above and those of the superblock.
fn above_and(first: usize, rows: usize) -> Vec<usize> {
    let above = [first - 5, first - 3, first - 1];
    above.into_iter().chain(first..first + rows).collect()
}

fn in_row(superblock_row: u32) -> Place {
    Place {
        superblock_row,
        ..PLACE
    }
}

#[test]
fn entries_follow_the_superblock_row() {
    let even = table(FRAME, in_row(0));
    assert_eq!(present(&even), above_and(5, 16));
    assert_eq!(even.entries[5..8], [Some(0), Some(64), Some(128)]);
    let odd = table(FRAME, in_row(1));
    assert_eq!(present(&odd), above_and(21, 16));

    let description = Description { sb128: 1, ..FRAME };
    for superblock_row in [0, 1] {
        let large = table(description, in_row(superblock_row));
        assert_eq!(present(&large), above_and(5, 32));
    }
}

/// What the even row has last in a superblock is what the odd row has above, and back.
#[test]
fn odd_rows_are_swapped() {
    for sb128 in [0, 1] {
        let description = Description { sb128, ..FRAME };
        let [even, odd] = [0, 1].map(|superblock_row| table(description, in_row(superblock_row)));
        let rows = 16 << sb128;
        let shift = if sb128 == 0 { 16 } else { 0 };
        for above in [0, 2, 4] {
            assert_eq!(even.entries[rows + above], odd.entries[shift + above]);
            assert_eq!(even.entries[above], odd.entries[shift + rows + above]);
        }
    }
}

#[test]
fn only_the_parity_of_the_superblock_row_counts() {
    for superblock_row in [0, 1] {
        let far = (1 << 24) - 2 + superblock_row;
        assert_eq!(
            table(FRAME, in_row(superblock_row)),
            table(FRAME, in_row(far))
        );
    }
    // The Rust's product overflows further on.
    assert_eq!(setup(&FRAME, &in_row(1 << 27)), Outcome::Panicked);
}

#[test]
fn tile_rows_and_passes_have_their_own_parts() {
    let place = Place {
        tile_row: 2,
        pass: 2,
        ..PLACE
    };
    let n_blocks = 3 * 32;
    let both = table(FRAME, place);
    assert_eq!(both.entries[5], Some(2 * 35 * 64 + 70 * n_blocks));
    assert_eq!(both.projection, 2 * 16 * 32);

    let one_frame = Description {
        frame_threads: 1,
        ..FRAME
    };
    assert_eq!(table(one_frame, place).entries[5], Some(2 * 35 * 64));
    let one_tile = Description {
        tile_threads: 1,
        ..FRAME
    };
    assert_eq!(table(one_tile, place).entries[5], Some(70 * 32));
    assert_eq!(table(one_tile, place).projection, 0);
}

#[test]
fn ends_are_cut_and_starts_are_not() {
    let place = Place {
        col_start: 60,
        col_end: 70,
        row_start: 80,
        row_end: 80,
        ..PLACE
    };
    let cut = table(FRAME, place);
    assert_eq!([cut.col_start, cut.col_end], [60, 50]);
    assert_eq!([cut.row_start, cut.row_end], [80, 76]);
}
