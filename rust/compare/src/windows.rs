//! Random windows of saves and loads.

use crate::frames::cut;
use jaskkovir::tmvs::Window;
use oracle::paper::FrameRecord;
use shared::split_mix::SplitMix64;

/// Most windows are accepted. Numbers past 32 bits keep their order when they are cut.
pub fn any(random: &mut SplitMix64, record: &FrameRecord) -> Window {
    let [left, right] = columns(random, record);
    let [top, bottom] = rows(random, record);
    let mut window = Window {
        tile_row: random.below(record.tile_rows as usize),
        left,
        right,
        top,
        bottom,
    };
    match random.below(40) {
        0 => *number(&mut window, random.below(5)) = random.below(100),
        1 => *number(&mut window, random.below(5)) = huge(random),
        2 => {
            window.top = huge(random) >> 1;
            window.bottom = window.top + random.below(17);
        }
        _ => {}
    }
    window
}

fn huge(random: &mut SplitMix64) -> usize {
    [(1 << 32) + random.below(4), usize::MAX, 1 << 63][random.below(3)]
}

/// Whole superblocks, the whole row of cells, and any.
fn columns(random: &mut SplitMix64, record: &FrameRecord) -> [usize; 2] {
    let [iw8, stride] = [record.iw8, record.stride].map(|number| number as usize);
    let start = random.below(iw8);
    let aligned = start & !7;
    match random.below(16) {
        0..2 => [0, stride],
        2..4 => [0, iw8],
        4..11 => [aligned, stride.min(aligned + 8 + 8 * random.below(6))],
        11..14 => [start, stride.min(start + random.below(20))],
        14 => [start, stride + random.below(3)],
        _ => [random.below(stride + 1), random.below(stride + 1)],
    }
}

/// Whole superblocks, and any; some pass the frame.
fn rows(random: &mut SplitMix64, record: &FrameRecord) -> [usize; 2] {
    let start = random.below(record.ih8 as usize);
    match random.below(32) {
        0..16 => [start & !7, (start & !7) + 8],
        16..20 => [start & !15, (start & !15) + 16],
        20..25 => [start, start + random.below(18)],
        25..31 => [start, (start & !7) + 8],
        _ => {
            let past = record.ih8 as usize + random.below(40);
            [past, past + random.below(18)]
        }
    }
}

fn number(window: &mut Window, at: usize) -> &mut usize {
    match at {
        0 => &mut window.tile_row,
        1 => &mut window.left,
        2 => &mut window.right,
        3 => &mut window.top,
        _ => &mut window.bottom,
    }
}

/// For the paper.
pub fn cut_window(window: &Window) -> oracle::Window {
    oracle::Window {
        tile_row: cut(window.tile_row),
        col_start: cut(window.left),
        col_end: cut(window.right),
        row_start: cut(window.top),
        row_end: cut(window.bottom),
    }
}

/// For the Rust, whose numbers have 31 bits. In an accepted window only a tile row that doesn't
/// count, or rows past the frame, are larger.
pub fn rust_window(window: &Window) -> oracle::Window {
    let fit = |number: usize| number.min(i32::MAX as usize) as u32;
    oracle::Window {
        tile_row: fit(window.tile_row),
        col_start: fit(window.left),
        col_end: fit(window.right),
        row_start: fit(window.top),
        row_end: fit(window.bottom),
    }
}
