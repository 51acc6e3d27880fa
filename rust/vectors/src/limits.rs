//! Limits that a save and a load share, with their neighbours, for a frame of 25 columns and 38 rows whose
//! rows have 32 cells.

/// 16 rows and 17, cut or not; ends before their starts.
pub const ROWS: [[u32; 2]; 10] = [
    [6, 22],
    [6, 23],
    [36, 52],
    [36, 53],
    [38, 55],
    [40, 57],
    [6, 5],
    [40, 39],
    [0, u32::MAX],
    [u32::MAX, 0],
];

/// The stride and one past it; ends before their starts.
pub const COLUMNS: [[u32; 2]; 7] = [
    [30, 32],
    [30, 33],
    [7, 6],
    [32, 31],
    [33, 33],
    [0, u32::MAX],
    [u32::MAX, u32::MAX],
];

/// Tile rows of two, by the number of tile threads: with one thread any is taken as the first.
pub const TILE_ROWS: [(u32, &[u32]); 2] = [
    (1, &[1, 2, i32::MAX as u32]),
    (2, &[1, 2, i32::MAX as u32, u32::MAX]),
];
