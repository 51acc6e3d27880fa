//! Superblock-row setup.

use crate::codec;
use crate::frames;
use crate::frames::cut;
use crate::names;
use crate::options::Options;
use crate::tables::table;
use crate::tally::Tally;
use jaskkovir::calls;
use jaskkovir::calls::Row;
use jaskkovir::Frame;
use jaskkovir::Tile;
use oracle::paper;
use oracle::paper::FrameRecord;
use oracle::rows::Place;
use oracle::rows::Prepared;
use shared::split_mix::SplitMix64;

/// The most bytes lent behind the tile.
const MORE: usize = 4;

pub fn compare(options: &Options) -> Result<Tally, String> {
    let mut random = options.random(names::ROWS);
    let mut tally = Tally::default();
    for _ in 0..options.cases(50_000, 1_000_000) {
        let mut record = frames::record(&mut random, frames::WHOLE);
        let mut bytes = codec::frame_bytes(&record);
        if random.below(16) == 0 {
            frames::damage(&mut random, &mut bytes);
            record = codec::frame_at(&bytes);
        }
        let rust = (paper::record_answer(&record) == 0).then(|| Prepared::on_record(&record));
        for _ in 0..20 {
            let row = any_row(&mut random, &record);
            let lent: [u8; Tile::LEN + MORE] = random.bytes();
            let len = Tile::LEN + random.below(MORE + 1);
            let asked = Asked { bytes, record, row };
            asked.compare(&mut tally, rust.as_ref(), &lent[..len])?;
        }
    }
    Ok(tally)
}

struct Asked {
    bytes: [u8; Frame::LEN],
    record: FrameRecord,
    row: Row,
}

impl Asked {
    fn compare(
        &self,
        tally: &mut Tally,
        rust: Option<&Prepared>,
        lent: &[u8],
    ) -> Result<(), String> {
        let wanted = paper::rows_answer(&self.record, &place(&self.row));
        tally.count(wanted);
        let mut after = lent.to_vec();
        if wanted == 0 {
            let rust = rust.expect("an accepted record is well formed");
            let table = table(rust, &self.row)?;
            let starts = [self.row.col_start, self.row.row_start].map(cut);
            after[..Tile::LEN].copy_from_slice(&codec::tile_bytes(&table, starts));
        }
        let mut tile = lent.to_vec();
        let answer = calls::tile_sbrow_init(&self.bytes, &self.row, &mut tile);
        if answer != wanted || tile != after {
            let (frame, row) = (self.bytes, self.row);
            let size = u64::from(self.record.width) + u64::from(self.record.height);
            tally.differ(size, || {
                format!("{row:?} on {frame:?}: ours {answer} {tile:?}, wanted {wanted} {after:?}")
            });
        }
        Ok(())
    }
}

/// For the paper. At most one number is past 32 bits, so that cutting it keeps their order.
fn place(row: &Row) -> Place {
    Place {
        col_start: cut(row.col_start),
        col_end: cut(row.col_end),
        row_start: cut(row.row_start),
        row_end: cut(row.row_end),
        superblock_row: cut(row.superblock_row),
        tile_row: cut(row.tile_row),
        pass: cut(row.pass),
    }
}

/// Most rows are accepted. At most one number is past 32 bits.
fn any_row(random: &mut SplitMix64, record: &FrameRecord) -> Row {
    let [col_start, col_end] = bounds(random, record.iw4 as usize);
    let [row_start, row_end] = bounds(random, record.ih4 as usize);
    let mut row = Row {
        col_start,
        col_end,
        row_start,
        row_end,
        superblock_row: match random.below(8) {
            0 => random.below(1 << 28),
            _ => random.below(300),
        },
        tile_row: match random.below(8) {
            0 => random.below(80),
            // A damaged record may have none.
            _ => random.below(record.tile_rows.clamp(1, 64) as usize),
        },
        pass: match random.below(20) {
            0 => [0, 3, 255, 257][random.below(4)],
            _ => 1 + random.below(2),
        },
    };
    if random.below(20) == 0 {
        let huge = [(1 << 32) + random.below(4), usize::MAX, 1 << 63][random.below(3)];
        *number(&mut row, random.below(7)) = huge;
    }
    row
}

/// Most end behind their start, in the frame or not far past it.
fn bounds(random: &mut SplitMix64, side: usize) -> [usize; 2] {
    let past = [8, 600, u32::MAX as usize - 20_000_000][random.below(3)];
    let reach = side.min(16_384) + random.below(past);
    let [a, b] = [random.below(reach + 1), random.below(reach + 1)];
    match random.below(20) {
        0 => [a, b],
        1 => [a, a],
        2 => [a + 1, a],
        _ => [a.min(b), a.max(b)],
    }
}

fn number(row: &mut Row, at: usize) -> &mut usize {
    match at {
        0 => &mut row.col_start,
        1 => &mut row.col_end,
        2 => &mut row.row_start,
        3 => &mut row.row_end,
        4 => &mut row.superblock_row,
        5 => &mut row.tile_row,
        _ => &mut row.pass,
    }
}
