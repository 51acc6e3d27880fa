//! Times of loads over fields that are filled in three ways.

use crate::inputs;
use crate::timing::Timing;
use jaskkovir::tmvs;
use jaskkovir::tmvs::Window;
use jaskkovir::Frame;
use oracle::load::Prepared;
use shared::split_mix::SplitMix64;
use std::hint::black_box;

pub const CELL_LEN: usize = 5;

/// The frame in 8-sample units; its rows have as many cells as it has columns.
pub const COLUMNS: usize = 240;
const ROWS: usize = 135;

/// Rows of a superblock row.
pub const HIGH: usize = 8;

/// What a field is filled with, beside cells without motion.
pub enum Fill {
    /// Each twentieth cell.
    Single,
    /// Blocks of 4 x 4 cells, all over.
    Blocks,
    /// No two neighbours alike.
    Different,
}

pub fn all() -> Vec<Timing> {
    [
        ("load, 5 % single cells", Fill::Single),
        ("load, blocks of 4 x 4 cells", Fill::Blocks),
        ("load, all cells different", Fill::Different),
    ]
    .map(|(name, fill)| filled(name, &fill))
    .into()
}

/// All superblock rows of the frame.
fn filled(name: &str, fill: &Fill) -> Timing {
    let fields = fields(fill);
    let fields = fields.each_ref().map(Vec::as_slice);
    let frame = inputs::frame();
    let listed = frame.listed_sizes().expect("the frame is accepted");
    let mut projection = inputs::lent(listed.projected, CELL_LEN);
    let Frame(frame) = frame;
    let (first, lent) = (rust_window(0), fields.map(Some));
    let mut rust = Prepared::new(&inputs::FRAME, [true; 7], &first, lent, &projection);
    let tops = || (0..ROWS).step_by(HIGH);
    let ours = || {
        for top in tops() {
            let window = window(top);
            let present = black_box(&inputs::PRESENT);
            let answer = tmvs::load_tmvs(&frame, &window, present, fields, &mut projection);
            assert_eq!(answer, 0);
        }
    };
    let rusts = || {
        for top in tops() {
            rust.set_window(&rust_window(top));
            black_box(&rust).call();
        }
    };
    Timing::new(name, (ROWS * COLUMNS, "cell"), ours, rusts)
}

/// A superblock row, over the frame's width.
fn window(top: usize) -> Window {
    Window {
        tile_row: 0,
        left: 0,
        right: COLUMNS,
        top,
        bottom: top + HIGH,
    }
}

/// The same for the Rust.
fn rust_window(top: usize) -> oracle::Window {
    oracle::Window {
        tile_row: 0,
        col_start: 0,
        col_end: COLUMNS as u32,
        row_start: top as u32,
        row_end: (top + HIGH) as u32,
    }
}

/// One for each reference.
pub fn fields(fill: &Fill) -> [Vec<u8>; 7] {
    let mut random = SplitMix64::new(1);
    std::array::from_fn(|_| field(&mut random, fill))
}

fn field(random: &mut SplitMix64, fill: &Fill) -> Vec<u8> {
    let mut cells = vec![[0; CELL_LEN]; ROWS * COLUMNS];
    for y in 0..ROWS {
        for x in 0..COLUMNS {
            cells[y * COLUMNS + x] = match fill {
                Fill::Single if random.below(20) > 0 => continue,
                Fill::Blocks if y % 4 > 0 => cells[(y - 1) * COLUMNS + x],
                Fill::Blocks if x % 4 > 0 => cells[y * COLUMNS + x - 1],
                _ => cell(random),
            };
        }
    }
    cells.concat()
}

/// A short vector, as most are.
fn cell(random: &mut SplitMix64) -> [u8; CELL_LEN] {
    let [y, x] = [random.component(200), random.component(400)].map(i16::to_le_bytes);
    [y[0], y[1], x[0], x[1], random.within(1, 7) as u8]
}
