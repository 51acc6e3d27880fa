//! The paper's refusals of a save.

mod common;

use common::RECORD;
use oracle::frame;
use oracle::frame::Description;
use oracle::paper::row_entries;
use oracle::paper::save_answer;
use oracle::paper::FrameRecord;
use oracle::rows;
use oracle::save::Place;
use oracle::Window;

const RECORDS: usize = 2241;
const FIELD: u64 = 5 * 1216;

const PLACE: Place = Place {
    window: Window {
        tile_row: 0,
        col_start: 0,
        col_end: 25,
        row_start: 0,
        row_end: 8,
    },
    superblock_row: 0,
    pass: 1,
};

/// Any record is well formed and 8 samples wide.
const FINE: [u8; 12] = [0, 0, 0, 0, 0, 0, 0, 0, 0, 255, 17, 0];
const BAD: [u8; 12] = [0, 0, 0, 0, 0, 0, 0, 0, 0, 255, 17, 4];

fn fine() -> Vec<[u8; 12]> {
    vec![FINE; RECORDS]
}

fn answer(record: &FrameRecord, place: &Place, records: &[[u8; 12]]) -> u8 {
    save_answer(record, place, records.as_flattened(), FIELD)
}

fn at(place: Place, change: impl FnOnce(&mut Window)) -> Place {
    let mut place = place;
    change(&mut place.window);
    place
}

#[test]
fn the_table_is_the_rusts() {
    for (sb128, threads) in [(0, [1, 1]), (1, [1, 2]), (0, [2, 2]), (1, [3, 1])] {
        let description = Description {
            width: 200,
            height: 300,
            sb128,
            tile_rows: 3,
            tile_threads: threads[0],
            frame_threads: threads[1],
            ..Description::SMALLEST
        };
        let finished = frame::setup(&description, [false; 7]).gave().unwrap();
        let record = FrameRecord {
            sbsz: finished.sbsz as u32,
            n_blocks: finished.n_blocks,
            n_tile_threads: finished.n_tile_threads,
            n_frame_threads: finished.n_frame_threads,
            ..RECORD
        };
        for [superblock_row, tile_row, pass] in [[0, 0, 1], [1, 2, 1], [6, 1, 2], [7, 2, 2]] {
            let place = rows::Place {
                col_start: 0,
                col_end: 0,
                row_start: 0,
                row_end: 0,
                superblock_row,
                tile_row,
                pass,
            };
            let table = rows::setup(&description, &place).gave().unwrap();
            let entries = row_entries(&record, tile_row, superblock_row, pass);
            assert_eq!(
                entries.map(|entry| entry.map(|at| at as usize)),
                table.entries
            );
        }
    }
}

#[test]
fn save_gives_12_before_1_before_3_before_4_before_reads() {
    let mut records = fine();
    records[2 * 32 + 1] = BAD;
    let ruined = FrameRecord { sbsz: 0, ..RECORD };
    let backwards = at(PLACE, |window| window.col_start = 26);
    let pass = Place {
        pass: 3,
        ..backwards
    };
    assert_eq!(answer(&ruined, &pass, &[]), 12);
    assert_eq!(answer(&ruined, &backwards, &[]), 1);
    assert_eq!(answer(&RECORD, &backwards, &[]), 3);
    assert_eq!(answer(&RECORD, &PLACE, &records[..RECORDS - 1]), 4);
    assert_eq!(answer(&RECORD, &PLACE, &fine()), 0);
}

#[test]
fn windows_have_limits() {
    let wide = |change: fn(&mut Window)| answer(&RECORD, &at(PLACE, change), &fine());
    assert_eq!(wide(|window| window.col_end = 32), 0);
    assert_eq!(wide(|window| window.col_end = 33), 3);
    assert_eq!(wide(|window| window.col_end = u32::MAX), 3);
    // The rows past the frame's last, 38, aren't walked, but count.
    let rows = |start, end| {
        let place = at(PLACE, |window| {
            [window.row_start, window.row_end] = [start, end]
        });
        answer(&RECORD, &place, &fine())
    };
    assert_eq!((rows(36, 52), rows(36, 53)), (0, 3));
    assert_eq!((rows(36, 36), rows(36, 35)), (0, 3));
    assert_eq!(rows(39, 40), 0);
    assert_eq!(rows(u32::MAX, u32::MAX), 0);
    assert_eq!(rows(u32::MAX - 16, u32::MAX), 0);
    assert_eq!(rows(0, u32::MAX), 3);
}

#[test]
fn a_tile_row_counts_with_more_than_one_tile_thread() {
    let threaded = FrameRecord {
        n_blocks: 96,
        n_tile_threads: 2,
        ..RECORD
    };
    let records = vec![FINE; 70 * 96 + 1];
    for (tile_row, expected) in [(2, 0), (3, 3), (u32::MAX, 3)] {
        let place = at(PLACE, |window| window.tile_row = tile_row);
        assert_eq!(answer(&threaded, &place, &records), expected);
        assert_eq!(answer(&RECORD, &place, &records), 0);
    }
}

#[test]
fn both_buffers_count_without_a_row_to_walk() {
    let none = at(PLACE, |window| window.row_end = 0);
    let records = fine();
    let lens = |records: &[u8], field_len| save_answer(&RECORD, &none, records, field_len);
    let bytes = records.as_flattened();
    assert_eq!(lens(bytes, FIELD), 0);
    assert_eq!(lens(bytes, FIELD - 1), 4);
    assert_eq!(lens(&bytes[1..], FIELD), 4);
}

#[test]
fn absent_rows_count_where_a_record_is_read() {
    // The table of an even row ends with entry 20, that of an odd one starts with 16.
    let rows = |superblock_row, start, end| {
        let mut place = at(PLACE, |window| {
            [window.row_start, window.row_end] = [start, end]
        });
        place.superblock_row = superblock_row;
        answer(&RECORD, &place, &fine())
    };
    assert_eq!((rows(0, 0, 8), rows(0, 0, 9)), (0, 6));
    assert_eq!((rows(1, 5, 16), rows(1, 4, 16)), (0, 6));
    let past = at(PLACE, |window| {
        [window.row_start, window.row_end] = [8, 9];
        [window.col_start, window.col_end] = [25, 32];
    });
    assert_eq!(answer(&RECORD, &past, &fine()), 0);
}

/// The place of the record that is read for cell (y, x), y below 8.
fn place_of(y: usize, x: usize) -> usize {
    (2 * y + 1) * 64 + 2 * x + 1
}

#[test]
fn only_read_records_have_to_be_well_formed() {
    let mut records = vec![BAD; RECORDS];
    for y in 0..8 {
        for x in 0..25 {
            records[place_of(y, x)] = FINE;
        }
    }
    assert_eq!(answer(&RECORD, &PLACE, &records), 0);
    records[place_of(7, 24)] = BAD;
    assert_eq!(answer(&RECORD, &PLACE, &records), 8);
    // A block of 16 samples before it jumps over it.
    records[place_of(7, 23)][10] = 12;
    assert_eq!(answer(&RECORD, &PLACE, &records), 0);
}

#[test]
fn a_block_ends_within_its_limit() {
    let wide = |x: usize, size, col_end| {
        let mut records = fine();
        records[place_of(7, x)][10] = size;
        let place = at(PLACE, |window| window.col_end = col_end);
        answer(&RECORD, &place, &records)
    };
    // 64 samples are 8 cells, 32 are 4.
    assert_eq!((wide(16, 3, 24), wide(17, 3, 24)), (0, 9));
    // At the frame's last column the stride takes the end's place.
    assert_eq!((wide(24, 3, 25), wide(24, 3, 32)), (0, 0));
    assert_eq!((wide(20, 7, 24), wide(21, 7, 24)), (0, 9));
    assert_eq!((wide(16, 0, 25), wide(17, 0, 25)), (0, 9));
}

#[test]
fn the_first_bad_read_answers() {
    let place = at(PLACE, |window| [window.row_start, window.row_end] = [7, 9]);
    let with = |bytes: [u8; 12], x: usize| {
        let mut records = fine();
        records[place_of(7, x)] = bytes;
        answer(&RECORD, &place, &records)
    };
    let wide = [0, 0, 0, 0, 0, 0, 0, 0, 0, 255, 0, 0];
    let both = [0, 0, 0, 0, 0, 0, 0, 0, 0, 255, 0, 4];
    assert_eq!(with(FINE, 24), 6);
    assert_eq!(with(BAD, 24), 8);
    assert_eq!(with(wide, 24), 9);
    assert_eq!(with(both, 24), 8);
}
