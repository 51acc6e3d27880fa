//! Saved fields as saves leave them: blocks of cells that are all the same, and cells without
//! motion between them.

use oracle::paper;
use oracle::paper::FrameRecord;
use shared::split_mix::SplitMix64;

const CELL_LEN: usize = 5;

/// The listed cells, all well formed, and more bytes behind them.
pub fn blocks(random: &mut SplitMix64, record: &FrameRecord, more: usize) -> Vec<u8> {
    let stride = record.stride as usize;
    let listed = paper::saved_cells(record) as usize;
    let mut bytes = vec![0; CELL_LEN * listed + more];
    let (cells, _) = bytes.as_chunks_mut::<CELL_LEN>();
    // The bytes behind may hold a cell.
    let cells = &mut cells[..listed];
    let rows = listed / stride;
    let most = [1, 2, 4, 8][random.below(4)];
    for _ in 0..listed / most / [1, 4][random.below(2)] + 1 {
        let cell = any(random);
        let [y, x] = [random.below(rows), random.below(stride)];
        let height = 1 + random.below(most);
        let width = (1 + random.below(most)).min(stride - x);
        for row in y..rows.min(y + height) {
            cells[row * stride + x..][..width].fill(cell);
        }
    }
    let behind = &mut bytes[CELL_LEN * listed..];
    behind.fill_with(|| random.bytes::<1>()[0]);
    bytes
}

/// A saved cell. Most vectors are short, so that it may land; without a reference they are free.
fn any(random: &mut SplitMix64) -> [u8; CELL_LEN] {
    let reference = random.below(9).min(7) as u8;
    let [y, x] = match random.below(12) {
        0 => [4095, -4095],
        1 => [random.component(4095), random.component(4095)],
        2 => [0, 0],
        3 if reference == 0 => [i16::MIN, i16::MAX],
        3..6 => [random.component(63), random.component(1200)],
        _ => [random.component(300), random.component(700)],
    };
    let ([y0, y1], [x0, x1]) = (y.to_le_bytes(), x.to_le_bytes());
    [y0, y1, x0, x1, reference]
}
