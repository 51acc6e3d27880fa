//! The functions that take any slices. Each answers 0 or a refusal, and writes only where it
//! answers 0.

use crate::abi;
use crate::lend::lend;

/// What a frame is set up from.
#[derive(Clone, Copy, Debug)]
pub struct Description<'a> {
    pub width: usize,
    pub height: usize,
    /// 1 for superblocks of 128 samples, 0 for 64.
    pub sb128: u8,
    pub hint_bits: u32,
    pub current_hint: u32,
    /// 7 bytes.
    pub hints: &'a [u8],
    /// 49 bytes, seven for each reference: the hints that its own frame had.
    pub hints_by_ref: &'a [u8],
    pub tile_rows: usize,
    pub tile_threads: usize,
    pub frame_threads: usize,
    /// The header's flag for temporal search.
    pub temporal: u8,
}

/// What a superblock row is set up from. Bounds are in 4-sample units.
#[derive(Clone, Copy, Debug)]
pub struct Row {
    pub col_start: usize,
    pub col_end: usize,
    pub row_start: usize,
    pub row_end: usize,
    pub superblock_row: usize,
    pub tile_row: usize,
    pub pass: usize,
}

/// A block in 4-sample units.
#[derive(Clone, Copy, Debug)]
pub struct Block {
    pub y: usize,
    pub x: usize,
    pub width: usize,
    pub height: usize,
}

/// Frame setup. Accepted, it writes the first 109 bytes of `frame`. A reference's `present` byte, of
/// 7, is 1 where its frame has the current one's size in units of 8 samples, and is neither a key
/// nor an intra-only frame.
pub fn init_frame(description: &Description, present: &[u8], frame: &mut [u8]) -> u8 {
    let Description {
        hints,
        hints_by_ref,
        ..
    } = description;
    lend(
        [hints, hints_by_ref, present],
        [frame],
        |[hints, hints_by_ref, present], [frame]| {
            // SAFETY: The parts are slices, and none shares a byte with the one written to.
            unsafe {
                abi::jaskkovir_init_frame(
                    description.width,
                    description.height,
                    description.sb128,
                    description.hint_bits,
                    description.current_hint,
                    hints.at,
                    hints.len,
                    hints_by_ref.at,
                    hints_by_ref.len,
                    description.tile_rows,
                    description.tile_threads,
                    description.frame_threads,
                    description.temporal,
                    present.at,
                    present.len,
                    frame.at,
                    frame.len,
                )
            }
        },
    )
}

/// Whether a frame record is one that later calls take.
pub fn check(frame: &[u8]) -> u8 {
    lend([frame], [], |[frame], []| {
        // SAFETY: The part is a slice.
        unsafe { abi::jaskkovir_check(frame.at, frame.len) }
    })
}

/// How many cells and records to lend. Accepted, it writes the first 12 bytes of `sizes`: saved
/// cells, projected cells, records (u32 each).
pub fn listed_sizes(frame: &[u8], sizes: &mut [u8]) -> u8 {
    lend([frame], [sizes], |[frame], [sizes]| {
        // SAFETY: The parts are slices, and share no byte.
        unsafe { abi::jaskkovir_listed_sizes(frame.at, frame.len, sizes.at, sizes.len) }
    })
}

/// Superblock-row setup. Accepted, it writes the first 168 bytes of `tile`.
pub fn tile_sbrow_init(frame: &[u8], row: &Row, tile: &mut [u8]) -> u8 {
    lend([frame], [tile], |[frame], [tile]| {
        // SAFETY: The parts are slices, and share no byte.
        unsafe {
            abi::jaskkovir_tile_sbrow_init(
                frame.at,
                frame.len,
                row.col_start,
                row.col_end,
                row.row_start,
                row.row_end,
                row.superblock_row,
                row.tile_row,
                row.pass,
                tile.at,
                tile.len,
            )
        }
    })
}

/// Splat. Accepted, it writes the record to each place of the block in `records`.
pub fn splat_mv(frame: &[u8], tile: &[u8], record: &[u8], block: &Block, records: &mut [u8]) -> u8 {
    lend(
        [frame, tile, record],
        [records],
        |[frame, tile, record], [records]| {
            // SAFETY: The parts are slices, and none shares a byte with the one written to.
            unsafe {
                abi::jaskkovir_splat_mv(
                    frame.at,
                    frame.len,
                    tile.at,
                    tile.len,
                    record.at,
                    record.len,
                    block.y,
                    block.x,
                    block.width,
                    block.height,
                    records.at,
                    records.len,
                )
            }
        },
    )
}

/// The bytes of `stack` and of `found` that [`find`] writes to.
pub const STACK_LEN: usize = 96;
pub const FOUND_LEN: usize = 2;

/// What a search reads. `projection` isn't looked at where temporal search is off.
#[derive(Clone, Copy, Debug)]
pub struct Searched<'a> {
    /// 109 bytes.
    pub frame: &'a [u8],
    /// 168 bytes.
    pub tile: &'a [u8],
    pub records: &'a [u8],
    pub projection: &'a [u8],
}

/// The candidate search for what `ask` says, an [`Ask`](crate::Ask) of 24 bytes. Accepted, the first
/// two bytes of `found` become the count and the context. Of the first eight records of `stack`
/// (first vector y, x, second vector y, x, i16; weight u32) those below the count get their weight
/// and used vectors, the first in a single search and both in a compound one; in a single search the
/// first two get a first vector in any case. All else stays.
pub fn find(searched: &Searched, ask: &[u8], stack: &mut [u8], found: &mut [u8]) -> u8 {
    let Searched {
        frame,
        tile,
        records,
        projection,
    } = searched;
    lend(
        [frame, tile, records, projection, ask],
        [stack, found],
        |[frame, tile, records, projection, ask], [stack, found]| {
            // SAFETY: The parts are slices, and none shares a byte with one written to.
            unsafe {
                abi::jaskkovir_find(
                    frame.at,
                    frame.len,
                    tile.at,
                    tile.len,
                    records.at,
                    records.len,
                    projection.at,
                    projection.len,
                    ask.at,
                    ask.len,
                    stack.at,
                    stack.len,
                    found.at,
                    found.len,
                )
            }
        },
    )
}

/// The bytes of `steps` that [`play`] writes.
pub const STEPS_LEN: usize = 32;

/// Plays a capture file whole. Accepted, every whole cell of `projection` starts as INVALID with
/// reference 0 and every one of `saved` as zero, the jobs run in list order, and the first 32 bytes
/// of `steps` become eight u32: how many steps each job had, 0 behind the last.
pub fn play(file: &[u8], projection: &mut [u8], saved: &mut [u8], steps: &mut [u8]) -> u8 {
    lend(
        [file],
        [projection, saved, steps],
        |[file], [projection, saved, steps]| {
            // SAFETY: The parts are slices, and none shares a byte with one written to.
            unsafe {
                abi::jaskkovir_play(
                    file.at,
                    file.len,
                    projection.at,
                    projection.len,
                    saved.at,
                    saved.len,
                    steps.at,
                    steps.len,
                )
            }
        },
    )
}
