//! A real stream under way: the port's buffers, and the Rust's beside them.

use crate::codec;
use crate::frames;
use crate::tables::table;
use crate::tally::Tally;
use crate::traced;
use crate::traced::Cursor;
use jaskkovir::calls;
use jaskkovir::calls::Block;
use jaskkovir::calls::Row;
use jaskkovir::Frame;
use jaskkovir::Tile;
use oracle::frame;
use oracle::paper;
use oracle::paper::FrameRecord;
use oracle::record::frame_record;
use oracle::rows;
use oracle::splat;
use oracle::splat::Splatted;
use shared::sequences::Event;
use std::collections::HashMap;

const RECORD_LEN: usize = 12;

#[derive(Default)]
pub struct Stream {
    /// By frame number. The port's and the Rust's were the same after each save.
    pub fields: HashMap<u16, Vec<u8>>,
    pub now: Option<Now>,
}

/// The frame that is being decoded.
pub struct Now {
    pub number: u16,
    pub record: FrameRecord,
    pub frame: [u8; Frame::LEN],
    pub present: [u8; 7],
    /// The frames whose fields are lent.
    pub lent: [Option<u16>; 7],
    /// High precision and integer vectors.
    pub precision: [u8; 2],
    pub row: Option<Row>,
    /// The Rust's for that row.
    pub table: Option<rows::Table>,
    pub tile: [u8; Tile::LEN],
    pub records: Vec<u8>,
    rust: splat::Prepared,
    pub projection: Vec<u8>,
}

impl Stream {
    /// Takes an event, and tells what differs.
    pub fn take(&mut self, event: &Event, tally: &mut Tally) -> Result<Vec<String>, String> {
        let body = &mut Cursor(event.body);
        match (event.letter, self.now.as_mut()) {
            (b'F', _) => self.set_up(body, tally),
            (b'R', Some(now)) => now.set_row(body, tally),
            (b'S', Some(now)) => now.splat(body, tally),
            (b'L', Some(_)) => self.load(body, tally),
            (b'V', Some(_)) => self.save(body, tally),
            (b'Q', Some(now)) => now.search(event.body, tally),
            _ => Err("an event before the first frame".to_string()),
        }
    }

    fn set_up(&mut self, body: &mut Cursor, tally: &mut Tally) -> Result<Vec<String>, String> {
        let number = body.u16();
        let (question, precision) = traced::question(body);
        let lent = std::array::from_fn(|_| Some(body.u16()).filter(|&number| number != u16::MAX));
        let description = question.description();
        let finished = frame::setup(&description, question.present.map(|flag| flag == 1));
        let finished = finished.gave().ok_or("the Rust panicked in frame setup")?;
        let record = frame_record(&description, &finished);
        let mut frame = [0; Frame::LEN];
        let answer = calls::init_frame(&frames::asked(&question), &question.present, &mut frame);
        tally.count(0);
        let mut differing = Vec::new();
        if answer != 0 || frame != codec::frame_bytes(&record) {
            differing.push(format!("setup: {answer} {frame:?}, the Rust {record:?}"));
        }
        if traced::finished(&codec::frame_at(&frame), body.0[2]) != body.0 {
            differing.push(format!("setup: {frame:?}, traced {:?}", body.0));
        }
        let field = vec![0; 5 * paper::saved_cells(&record) as usize];
        self.fields.insert(number, field);
        self.now = Some(Now {
            number,
            frame,
            present: question.present,
            lent,
            precision,
            row: None,
            table: None,
            tile: [0; Tile::LEN],
            records: vec![0; RECORD_LEN * paper::listed_records(&record) as usize],
            rust: splat::Prepared::new(&description, &NO_ROW),
            projection: vec![0; 5 * 16 * record.n_blocks as usize],
            record,
        });
        Ok(differing)
    }
}

impl Now {
    fn set_row(&mut self, body: &mut Cursor, tally: &mut Tally) -> Result<Vec<String>, String> {
        let tile_row = body.u8().into();
        let [col_start, col_end, row_start, row_end, superblock_row] =
            std::array::from_fn(|_| body.u16().into());
        let row = Row {
            col_start,
            col_end,
            row_start,
            row_end,
            superblock_row,
            tile_row,
            pass: body.u8().into(),
        };
        let table = table(&rows::Prepared::on_record(&self.record), &row)?;
        let answer = calls::tile_sbrow_init(&self.frame, &row, &mut self.tile);
        tally.count(0);
        self.rust.set_table(&table);
        self.row = Some(row);
        self.table = Some(table);
        let starts = [col_start, row_start].map(|start| start as u32);
        if answer == 0 && self.tile == codec::tile_bytes(&table, starts) {
            return Ok(Vec::new());
        }
        Ok(vec![format!("{row:?}: {answer} {:?}", self.tile)])
    }

    fn splat(&mut self, body: &mut Cursor, tally: &mut Tally) -> Result<Vec<String>, String> {
        let [y, x] = [body.u16(), body.u16()];
        let [width, height] = [body.u8(), body.u8()];
        let bytes: [u8; RECORD_LEN] = body.0.try_into().map_err(|_| "a splat has its record")?;
        let block = splat::Block {
            by4: y.into(),
            bx4: x.into(),
            width: width.into(),
            height: height.into(),
        };
        self.rust
            .try_call(&block, &Splatted::new(bytes))
            .gave()
            .ok_or("the Rust panicked in splat")?;
        let ours = Block {
            y: y.into(),
            x: x.into(),
            width: width.into(),
            height: height.into(),
        };
        let answer = calls::splat_mv(&self.frame, &self.tile, &bytes, &ours, &mut self.records);
        tally.count(0);
        if answer == 0 && self.records == self.rust.records() {
            return Ok(Vec::new());
        }
        Ok(vec![format!("{block:?} of {bytes:?}: {answer}")])
    }
}

const NO_ROW: rows::Table = rows::Table {
    entries: [None; 37],
    projection: 0,
    col_start: 0,
    col_end: 0,
    row_start: 0,
    row_end: 0,
};
