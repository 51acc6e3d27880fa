//! Splat. The port's buffer and the Rust's go on together, and are compared whole after each case.

use crate::codec;
use crate::frames;
use crate::frames::cut;
use crate::names;
use crate::options::Options;
use crate::tables::table;
use crate::tally::Tally;
use cases::records;
use jaskkovir::calls;
use jaskkovir::calls::Block;
use jaskkovir::calls::Row;
use jaskkovir::Frame;
use jaskkovir::Tile;
use oracle::paper;
use oracle::paper::FrameRecord;
use oracle::paper::RowTable;
use oracle::rows::Table;
use oracle::splat::Prepared;
use oracle::splat::Splatted;
use shared::split_mix::SplitMix64;

const RECORD_LEN: usize = 12;

/// Bytes lent behind the listed records.
const MORE: usize = 29;

pub fn compare(options: &Options) -> Result<Tally, String> {
    let mut random = options.random(names::SPLAT);
    let mut tally = Tally::default();
    for i in 0..options.cases(2_000, 40_000) {
        let limits = match i % 200 {
            0 => frames::LARGE,
            _ => frames::SMALL,
        };
        let record = frames::record(&mut random, limits);
        let mut run = Run::new(&mut random, record);
        for _ in 0..8 {
            let row = any_row(&mut random, &record);
            run.turn_to(&mut random, &row)?;
            for _ in 0..20 {
                run.splat(&mut random, &mut tally)?;
            }
        }
    }
    Ok(tally)
}

/// A frame with its buffers and a tile.
struct Run {
    record: FrameRecord,
    frame: [u8; Frame::LEN],
    tile: [u8; Tile::LEN],
    /// The same for the paper.
    table: RowTable,
    superblock_row: usize,
    rust: Prepared,
    rust_rows: oracle::rows::Prepared,
    /// As the port leaves it, and as it should be.
    ours: Vec<u8>,
    wanted: Vec<u8>,
}

/// What a splat is asked.
struct Question {
    frame: [u8; Frame::LEN],
    bytes: [u8; 12],
    block: Block,
    /// How much of the buffer is lent.
    len: usize,
}

impl Run {
    fn new(random: &mut SplitMix64, record: FrameRecord) -> Self {
        let listed = RECORD_LEN * paper::listed_records(&record) as usize;
        let wanted = records::buffer(random, listed, MORE);
        let mut rust = Prepared::on_record(&record, &EMPTY);
        rust.put_records(&wanted[..listed]);
        let tile = codec::tile_bytes(&EMPTY, [0; 2]);
        Self {
            record,
            frame: codec::frame_bytes(&record),
            tile,
            table: codec::table_at(&tile),
            superblock_row: 0,
            rust,
            rust_rows: oracle::rows::Prepared::on_record(&record),
            ours: wanted.clone(),
            wanted,
        }
    }

    /// Sets up a row, and changes some of the tile's numbers in some.
    fn turn_to(&mut self, random: &mut SplitMix64, row: &Row) -> Result<(), String> {
        let table = table(&self.rust_rows, row)?;
        self.tile = codec::tile_bytes(&table, [row.col_start, row.row_start].map(cut));
        if random.below(4) == 0 {
            self.change_tile(random);
        }
        self.table = codec::table_at(&self.tile);
        self.superblock_row = row.superblock_row;
        self.rust.set_table(&rust_table(&self.table));
        Ok(())
    }

    fn change_tile(&mut self, random: &mut SplitMix64) {
        let listed = paper::listed_records(&self.record) as usize;
        for _ in 0..=random.below(6) {
            let place = match random.below(4) {
                0 => u32::MAX as usize,
                1 => listed - 1 + random.below(3),
                2 => listed.saturating_sub(1 + random.below(100)),
                _ => random.below(listed),
            };
            codec::put_number(&mut self.tile, random.below(37), place as u32);
        }
        if random.below(4) == 0 {
            let bound = random.below(2 * self.record.iw4.max(self.record.ih4) as usize);
            codec::put_number(&mut self.tile, 38 + random.below(4), bound as u32);
        }
    }

    fn splat(&mut self, random: &mut SplitMix64, tally: &mut Tally) -> Result<(), String> {
        let question = self.question(random);
        let record = codec::frame_at(&question.frame);
        let lent = question.len as u64;
        let block = paper_block(&question.block);
        let wanted = paper::splat_answer(&record, &self.table, &block, question.bytes, lent);
        tally.count(wanted);
        if wanted == 0 {
            self.answer(tally, &question, &block)?;
        }
        let answer = calls::splat_mv(
            &question.frame,
            &self.tile,
            &question.bytes,
            &question.block,
            &mut self.ours[..question.len],
        );
        if answer != wanted || self.ours != self.wanted {
            self.tell(tally, &question, [answer, wanted]);
            self.ours.copy_from_slice(&self.wanted);
        }
        Ok(())
    }

    /// Brings the buffer to what the Rust makes of it.
    fn answer(
        &mut self,
        tally: &mut Tally,
        question: &Question,
        block: &oracle::splat::Block,
    ) -> Result<(), String> {
        if self.meets_last(block) {
            tally.count_paper_alone();
            self.write(question, block);
            let whole = self.wanted.len() - MORE;
            self.rust.put_records(&self.wanted[..whole]);
            return Ok(());
        }
        let splatted = Splatted::new(question.bytes);
        let outcome = self.rust.try_call(block, &splatted).gave();
        outcome.ok_or_else(|| format!("the Rust panicked: {block:?} on {:?}", self.tile))?;
        self.rust.take_records(&mut self.wanted);
        Ok(())
    }

    /// An entry at the very last listed record is absent for the Rust, and a place for the paper.
    fn meets_last(&self, block: &oracle::splat::Block) -> bool {
        let last = paper::listed_records(&self.record) - 1;
        let first = block.by4 as usize % 32 + 5;
        let entries = &self.table.entries[first..first + block.height as usize];
        entries
            .iter()
            .any(|entry| entry.map(u64::from) == Some(last))
    }

    /// The record to each place of the block.
    fn write(&mut self, question: &Question, block: &oracle::splat::Block) {
        let first = block.by4 as usize % 32 + 5;
        for entry in &self.table.entries[first..first + block.height as usize] {
            let place = (entry.expect("the row is there") + block.bx4) as usize;
            let row = &mut self.wanted[RECORD_LEN * place..];
            for to in row.chunks_exact_mut(RECORD_LEN).take(block.width as usize) {
                to.copy_from_slice(&question.bytes);
            }
        }
    }

    fn question(&self, random: &mut SplitMix64) -> Question {
        let mut frame = self.frame;
        if random.below(100) == 0 {
            frames::ruin(random, &mut frame);
        }
        let mut bytes = records::any(random);
        if random.below(30) == 0 {
            bytes[random.below(RECORD_LEN)] = random.bytes::<1>()[0];
        }
        let len = match random.below(50) {
            0 => random.below(self.ours.len()),
            1 => self.ours.len() - random.below(2 * MORE),
            _ => self.ours.len(),
        };
        Question {
            frame,
            bytes,
            block: self.block(random),
            len,
        }
    }

    /// Most blocks lie in the tile and the superblock row.
    fn block(&self, random: &mut SplitMix64) -> Block {
        let (side, table) = (self.record.sbsz, &self.table);
        let top = side * self.superblock_row as u32;
        let y = match random.below(20) {
            0 => within(random, table.row_start, table.row_end),
            1 => within(random, top, top + side),
            _ => within(
                random,
                top.max(table.row_start),
                table.row_end.min(top + side),
            ),
        };
        let x = within(random, table.col_start, table.col_end);
        let side = side as usize;
        let across = (2 * self.record.stride as usize).saturating_sub(x);
        let mut block = Block {
            y,
            x,
            width: 1 + random.below(across.clamp(1, 32)),
            height: 1 + random.below(side - y % side),
        };
        if random.below(20) == 0 {
            move_to_edge(random, &mut block);
        }
        block
    }

    fn tell(&self, tally: &mut Tally, question: &Question, [answer, wanted]: [u8; 2]) {
        let Question {
            block, bytes, len, ..
        } = question;
        let (frame, tile) = (question.frame, self.tile);
        let differing = self.ours.iter().zip(&self.wanted).position(|(a, b)| a != b);
        let size = u64::from(self.record.width) + u64::from(self.record.height);
        tally.differ(size, || {
            format!(
                "{block:?} of {bytes:?}, {len} bytes lent, on {frame:?}, {tile:?}: ours {answer}, \
                 wanted {wanted}, first differing byte {differing:?}"
            )
        });
    }
}

/// Moves one number of a block to a limit, or past it.
fn move_to_edge(random: &mut SplitMix64, block: &mut Block) {
    let edges = [
        0,
        1,
        32,
        33,
        64,
        1 << 32,
        (1 << 32) + 1,
        usize::MAX,
        1 << 63,
    ];
    let number = match random.below(4) {
        0 => &mut block.y,
        1 => &mut block.x,
        2 => &mut block.width,
        _ => &mut block.height,
    };
    *number = edges[random.below(edges.len())];
}

/// A number from start on and below the end, if that is above.
fn within(random: &mut SplitMix64, start: u32, end: u32) -> usize {
    start as usize + random.below(end.saturating_sub(start).clamp(1, 40_000) as usize)
}

const EMPTY: Table = Table {
    entries: [None; 37],
    projection: 0,
    col_start: 0,
    col_end: 0,
    row_start: 0,
    row_end: 0,
};

/// For the paper and the Rust. A number past 32 bits is outside every tile, and so is the largest of
/// 32 bits.
fn paper_block(block: &Block) -> oracle::splat::Block {
    oracle::splat::Block {
        by4: cut(block.y),
        bx4: cut(block.x),
        width: cut(block.width),
        height: cut(block.height),
    }
}

/// A splat of the Rust reads only the entries.
fn rust_table(table: &RowTable) -> Table {
    let entries = table.entries.map(|entry| entry.map(|place| place as usize));
    Table { entries, ..EMPTY }
}

/// An accepted row, whose tile covers part of the frame.
fn any_row(random: &mut SplitMix64, record: &FrameRecord) -> Row {
    let bounds = |random: &mut SplitMix64, side: u32| match random.below(3) {
        0 => {
            let start = random.below(side as usize);
            [start, (start + 1 + random.below(40)).min(side as usize)]
        }
        _ => [0, side as usize],
    };
    let [col_start, col_end] = bounds(random, record.iw4);
    let [row_start, row_end] = bounds(random, record.ih4);
    let side = record.sbsz as usize;
    Row {
        col_start,
        col_end,
        row_start,
        row_end,
        superblock_row: (row_start + random.below(row_end - row_start)) / side,
        tile_row: random.below(record.tile_rows as usize),
        pass: 1 + random.below(2),
    }
}
