//! Frames in the middle of a decode: a superblock row's table, records as splats leave them, a
//! projection, and what a search may be asked there.

use crate::layout;
use crate::palette::Palette;
use crate::partition::Block;
use crate::partition::Codes;
use crate::records;
use oracle::leaves::Vector;
use oracle::paper;
use oracle::paper::FrameRecord;
use oracle::paper::RowTable;
use oracle::rows::Place;
use oracle::rows::Prepared;
use oracle::rows::Table;
use oracle::search::Ask;
use oracle::search::Global;
use shared::split_mix::SplitMix64;

const RECORD_LEN: usize = 12;

pub struct Scene {
    pub record: FrameRecord,
    /// The table of the superblock row that is decoded, for the Rust and for the paper.
    pub table: Table,
    pub rows: RowTable,
    /// As many as are listed, and so the projection.
    pub records: Vec<u8>,
    pub projection: Vec<u8>,
    place: Place,
    blocks: Vec<Block>,
    palette: Palette,
    codes: Codes,
}

impl Scene {
    /// Any superblock row of a frame, whose record must be well formed.
    pub fn new(random: &mut SplitMix64, record: FrameRecord) -> Result<Self, String> {
        let place = any_place(random, &record);
        let intra = record.use_ref_frame_mvs == 0 && random.below(4) == 0;
        let palette = Palette::new(random, intra);
        Self::at(random, record, place, palette)
    }

    /// A superblock row. It is laid out, and so is the one above it.
    pub fn at(
        random: &mut SplitMix64,
        record: FrameRecord,
        place: Place,
        palette: Palette,
    ) -> Result<Self, String> {
        let rust = Prepared::on_record(&record);
        let table = rust.setup(&place).gave().ok_or("the Rust panicked")?;
        let listed = RECORD_LEN * paper::listed_records(&record) as usize;
        let cells = 16 * record.n_blocks as usize;
        let projection = (0..cells).flat_map(|_| palette.cell(random)).collect();
        let mut scene = Self {
            record,
            rows: (&table).into(),
            table,
            records: records::buffer(random, listed, 0),
            projection,
            place,
            blocks: Vec::new(),
            palette,
            codes: Codes::new(),
        };
        if let Some(superblock_row) = place.superblock_row.checked_sub(1) {
            let above = Place {
                superblock_row,
                ..place
            };
            let table = rust.setup(&above).gave().ok_or("the Rust panicked")?;
            scene.lay_out(random, superblock_row, &table);
        }
        let blocks = scene.lay_out(random, place.superblock_row, &table);
        scene.blocks = blocks
            .into_iter()
            .filter(|block| scene.is_in_tile(block.y, block.x))
            .collect();
        Ok(scene)
    }

    /// Blocks over a whole superblock row, each splatted by the row's table.
    fn lay_out(&mut self, random: &mut SplitMix64, row: u32, table: &Table) -> Vec<Block> {
        let side = self.record.sbsz as usize;
        let (top, across) = (row as usize * side, 2 * self.record.stride as usize);
        let mut blocks = Vec::new();
        for x in (0..across).step_by(side) {
            self.codes.cut(random, [top, x], side, &mut blocks);
        }
        let (places, _) = self.records.as_chunks_mut::<RECORD_LEN>();
        for block in &blocks {
            let record = self.palette.record(random, block.code);
            for y in block.y..block.y + block.height {
                let entry = table.entries[y % 32 + 5].expect("the row's own entries are there");
                places[entry + block.x..][..block.width].fill(record);
            }
        }
        blocks
    }

    /// Makes the scene one that no decoder has: other layouts or sizes, and places of the table
    /// changed.
    pub fn roughen(&mut self, random: &mut SplitMix64) {
        match random.below(3) {
            0 => self.records = layout::blocks(random, &self.record, 0),
            1 => {
                let (places, _) = self.records.as_chunks_mut::<RECORD_LEN>();
                places
                    .iter_mut()
                    .for_each(|record| record[10] = random.below(self.codes.count()) as u8);
            }
            _ => {}
        }
        let listed = self.records.len() / RECORD_LEN;
        for _ in 0..random.below(8) {
            let place = [random.below(listed), listed + 20 - random.below(60)][random.below(2)];
            let entry = Some(place as u32).filter(|_| random.below(3) > 0);
            self.rows.entries[random.below(37)] = entry;
        }
        if random.below(4) == 0 {
            self.rows.projection = random.below(17 * self.record.n_blocks as usize) as u32;
        }
        self.table = (&self.rows).into();
    }

    fn is_in_tile(&self, y: usize, x: usize) -> bool {
        let [y, x] = [y, x].map(|at| at as u32);
        (self.rows.row_start..self.rows.row_end).contains(&y)
            && (self.rows.col_start..self.rows.col_end).contains(&x)
    }

    /// An ask in the tile and the superblock row.
    pub fn ask(&self, random: &mut SplitMix64) -> Ask {
        let block = self.block(random);
        let references = self.references(random);
        let mut ask = Ask {
            references,
            size: block.code,
            above_right: random.below(2) as u8,
            by4: block.y as u32,
            bx4: block.x as u32,
            globals: [Global::NONE; 2],
            integer: u8::from(random.below(5) == 0),
            hp: random.below(2) as u8,
        };
        ask.globals = [(); 2].map(|_| self.global(random, &ask));
        if references[0] == references[1] && random.below(8) > 0 {
            ask.globals[1] = ask.globals[0];
        }
        ask
    }

    /// The superblock row's blocks that start in the tile.
    pub fn blocks(&self) -> &[Block] {
        &self.blocks
    }

    /// Whether the ask is for a block that was laid out.
    pub fn is_laid_out(&self, ask: &Ask) -> bool {
        let asked = [ask.by4, ask.bx4, ask.size.into()];
        let same = |block: &Block| [block.y as u32, block.x as u32, block.code.into()] == asked;
        self.blocks.iter().any(same)
    }

    /// Mostly one of those that were laid out; some sizes at other places, aligned or not.
    fn block(&self, random: &mut SplitMix64) -> Block {
        let kind = random.below(20);
        if kind > 2 && !self.blocks.is_empty() {
            return self.blocks[random.below(self.blocks.len())];
        }
        let code = random.below(self.codes.count()) as u8;
        let [width, height] = self.codes.shape(code);
        let side = self.record.sbsz;
        let top = side * self.place.superblock_row;
        let rows = top.max(self.rows.row_start)..self.rows.row_end.min(top + side);
        let columns = self.rows.col_start..self.rows.col_end;
        let [y, x] = [rows, columns].map(|it| it.start as usize + random.below(it.len()));
        let aligned = [y - y % height, x - x % width];
        let [y, x] = match kind > 0 && self.is_in_tile(aligned[0], aligned[1]) {
            true => aligned,
            false => [y, x],
        };
        Block {
            y,
            x,
            width,
            height,
            code,
        }
    }

    fn references(&self, random: &mut SplitMix64) -> [i8; 2] {
        let first = self.palette.reference(random);
        match random.below(20) {
            0..10 if self.palette.intra => [0, -1],
            0..10 => [first, -1],
            10 => [first, first],
            _ => [first, self.palette.reference(random)],
        }
    }

    /// Mostly one that the Rust can be asked: whole samples in integer mode, and even for a type
    /// above translation without high precision.
    fn global(&self, random: &mut SplitMix64, ask: &Ask) -> Global {
        let above = u8::from(random.below(3) == 0);
        let mut mv = self.palette.vector(random);
        if random.below(40) > 0 {
            let step = match (ask.integer, above, ask.hp) {
                (1, _, _) => 8,
                (_, 1, 0) => 2,
                _ => 1,
            };
            mv = mv.map(|component| component / step * step);
        }
        let [y, x] = mv;
        Global {
            mv: Vector { y, x },
            above,
        }
    }
}

/// A tile that is the whole frame, some superblocks or any, and a superblock row in it.
fn any_place(random: &mut SplitMix64, record: &FrameRecord) -> Place {
    let side = record.sbsz;
    let bounds = |random: &mut SplitMix64, end: u32| match random.below(4) {
        0 => {
            let start = random.below(end as usize) as u32;
            [start, end.min(start + 1 + random.below(60) as u32)]
        }
        1 => {
            let start = random.below(end.div_ceil(side) as usize) as u32;
            let count = 1 + random.below(4) as u32;
            [side * start, end.min(side * (start + count))]
        }
        _ => [0, end],
    };
    let [col_start, col_end] = bounds(random, record.iw4);
    let [row_start, row_end] = bounds(random, record.ih4);
    let row = row_start + random.below((row_end - row_start) as usize) as u32;
    Place {
        col_start,
        col_end,
        row_start,
        row_end,
        superblock_row: row / side,
        tile_row: random.below(record.tile_rows as usize) as u32,
        pass: 1 + random.below(2) as u32,
    }
}
