//! Saves with any windows and blocks.

use crate::question::FrameQuestion;
use crate::save::block;
use crate::save::question::behind;
use crate::save::question::place;
use crate::save::question::SaveQuestion;
use crate::split_mix::SplitMix64;

/// Width, height, and tile rows, tile threads, frame threads.
const FRAMES: [(u32, u32, [u32; 3]); 14] = [
    (1, 1, [1, 1, 1]),
    (8, 8, [1, 1, 1]),
    (64, 64, [1, 1, 1]),
    (65, 130, [64, 1, 1]),
    (100, 60, [1, 255, 1]),
    (120, 250, [2, 2, 2]),
    (128, 128, [4, 3, 1]),
    (33, 1000, [1, 1, 2]),
    (200, 300, [1, 1, 1]),
    (200, 300, [3, 1, 2]),
    (250, 161, [2, 2, 1]),
    (300, 90, [3, 1, 1]),
    (500, 130, [1, 2, 1]),
    (512, 260, [1, 1, 1]),
];

/// The most blocks that a case has beside its filler.
const BLOCKS: usize = 24;

/// The Rust multiplies the superblock row by up to 32 in 32 bits.
const LAST_ROW: u32 = (1 << 24) - 1;

/// Some accepted save on the frame with this number.
pub fn any(i: usize, random: &mut SplitMix64) -> SaveQuestion {
    let (width, height, counts) = FRAMES[i % FRAMES.len()];
    let frame = FrameQuestion::sized(width, height, counts)
        .with(|frame| frame.description.sb128 = random.below(2) as u32);
    let frame = behind(frame, std::array::from_fn(|_| random.below(4) != 0));
    let columns = any_columns(&frame, random);
    let (rows, odd) = any_rows(&frame, random);
    let mut place = place(columns, rows);
    place.window.tile_row = random.below(counts[0] as usize) as u32;
    place.superblock_row = [0, 2, 8, LAST_ROW - 1][random.below(4)] + odd;
    place.pass = 1 + random.below(2) as u32;
    let widest = [1, 1, 2, 16][random.below(4)];
    let question = SaveQuestion::new(frame, place, block::any(random, widest));
    let count = [6, 12, BLOCKS, BLOCKS][random.below(4)];
    with_blocks(question, count, random)
}

fn any_columns(frame: &FrameQuestion, random: &mut SplitMix64) -> [u32; 2] {
    let columns = frame.description.width.div_ceil(8);
    let stride = 16 * frame.description.width.div_ceil(128);
    match random.below(6) {
        0 => [0, columns],
        1 => [0, stride],
        2 => [random.below(columns as usize) as u32, stride],
        _ => {
            let start = random.below(columns as usize) as u32;
            let most = (stride - start).min(24);
            [start, start + 1 + random.below(most as usize) as u32]
        }
    }
}

/// Rows that start within the frame, and whether an odd superblock row has them.
fn any_rows(frame: &FrameQuestion, random: &mut SplitMix64) -> ([u32; 2], u32) {
    let rows = frame.description.height.div_ceil(8);
    let start = random.below(rows as usize) as u32;
    let odd = match (frame.description.sb128, start % 16) {
        (1, _) | (_, 5..8) => random.below(2) as u32,
        (_, within) => within / 8,
    };
    let last = match (frame.description.sb128, odd) {
        (1, _) => start + 16,
        (_, odd) => start - start % 16 + 8 + 8 * odd,
    };
    let some = start + 1 + random.below((last - start) as usize) as u32;
    ([start, [last, some][random.below(2)]], odd)
}

/// Lays blocks over the rows that are walked, each at the record that is read for it or over all the
/// records of its width in that row.
pub fn with_blocks(question: SaveQuestion, count: usize, random: &mut SplitMix64) -> SaveQuestion {
    let (rows, columns, limit) = question.walked();
    let mut laid = question.clone();
    let mut free = vec![columns.start; rows.len()];
    for _ in 0..if rows.is_empty() { 0 } else { count } {
        let row = random.below(rows.len());
        let x = free[row] + random.below(4) as u32 * block::width(question.filler[10]);
        if x >= columns.end {
            continue;
        }
        let record = block::any(random, limit - x);
        let width = block::width(record[10]);
        let count = [1, 2 * width - 1][random.below(2)];
        laid.put([rows.start + row as u32, x], count, record);
        free[row] = x + width;
    }
    narrowed(laid)
}

/// The question, with a filler of one column where a wider one would pass the limit.
fn narrowed(question: SaveQuestion) -> SaveQuestion {
    match question.refusal() {
        Ok(9) => question.with(|question| question.filler[10] = block::PLAIN.size),
        _ => question,
    }
}
