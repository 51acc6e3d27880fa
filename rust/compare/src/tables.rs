//! A superblock row's table, asked of the Rust.

use jaskkovir::calls::Row;
use oracle::rows::Place;
use oracle::rows::Prepared;
use oracle::rows::Table;

/// The Rust multiplies a superblock row's number by up to 32 in 32 bits.
const ROWS_ASKED: usize = 1 << 24;

/// The Rust's table for an accepted row. Its numbers have 31 bits: larger ones of the port are asked
/// as the largest, and of a far superblock row only the parity.
pub fn table(rust: &Prepared, row: &Row) -> Result<Table, String> {
    let fit = |number: usize| number.min(i32::MAX as usize) as u32;
    let parity = row.superblock_row % 2;
    let near = row.superblock_row < ROWS_ASKED;
    let place = Place {
        col_start: fit(row.col_start),
        col_end: fit(row.col_end),
        row_start: fit(row.row_start),
        row_end: fit(row.row_end),
        superblock_row: fit(if near { row.superblock_row } else { parity }),
        tile_row: fit(row.tile_row),
        pass: fit(row.pass),
    };
    let table = rust.setup(&place).gave();
    table.ok_or_else(|| format!("the Rust panicked: {row:?}"))
}
