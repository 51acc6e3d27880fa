//! Real searches: the frames, tables, asks and answers of traced ones.

use oracle::frame;
use oracle::frame::Description;
use oracle::leaves::Vector;
use oracle::paper;
use oracle::paper::FrameRecord;
use oracle::record::frame_record;
use oracle::rows::Place;
use oracle::rows::Prepared;
use oracle::rows::Table;
use oracle::search::Answer;
use oracle::search::Ask;
use oracle::search::Candidate;
use oracle::search::Global;
use oracle::search::SLOTS;
use shared::finds::Find;
use shared::finds::Found;
use shared::finds::Query;
use shared::finds::Slot;
use shared::finds::FRAME_LEN;

/// A record and a cell that aren't well formed, for all that a search doesn't read.
pub const BAD_RECORD: [u8; 12] = [0, 0, 0, 0, 0, 0, 0, 0, 0, 255, 255, 0];
pub const BAD_CELL: [u8; 5] = [0, 0, 0, 0, 255];

/// A traced frame.
pub struct Frame {
    pub record: FrameRecord,
    hp: u8,
    integer: u8,
}

impl Frame {
    pub fn new(bytes: &[u8; FRAME_LEN]) -> Result<Self, String> {
        let (body, [mask, hp, integer]) = bytes.split_last_chunk().expect("a whole frame");
        let body = body.try_into().expect("a capture file's kind 1");
        let description = Description::from_body(body);
        let present = std::array::from_fn(|i| mask >> i & 1 == 1);
        let finished = frame::setup_without_buffers(&description, present);
        let finished = finished.gave().ok_or("the Rust panicked in frame setup")?;
        Ok(Self {
            record: frame_record(&description, &finished),
            hp: *hp,
            integer: *integer,
        })
    }

    pub fn ask(&self, query: &Query) -> Ask {
        ask(query, [self.hp, self.integer])
    }

    /// What superblock-row setup gives.
    pub fn table(&self, find: &Find) -> Result<Table, String> {
        let [col_start, col_end, row_start, row_end] = find.bounds.map(u32::from);
        let place = Place {
            col_start,
            col_end,
            row_start,
            row_end,
            superblock_row: find.superblock_row.into(),
            tile_row: find.tile_row.into(),
            pass: find.pass.into(),
        };
        let table = Prepared::on_record(&self.record).setup(&place).gave();
        table.ok_or_else(|| format!("the Rust panicked: {place:?}"))
    }

    /// The listed records and projection, with what the search read; all else is as given.
    pub fn buffers(&self, find: &Find, record: [u8; 12], cell: [u8; 5]) -> [Vec<u8>; 2] {
        let mut records = vec![record; paper::listed_records(&self.record) as usize];
        let mut cells = vec![cell; 16 * self.record.n_blocks as usize];
        for &(place, record) in &find.records {
            records[place as usize] = record;
        }
        for &(place, cell) in &find.cells {
            cells[place as usize] = cell;
        }
        [records.concat(), cells.concat()]
    }
}

/// A traced query on a frame with these flags for high precision and integer vectors.
pub fn ask(query: &Query, [hp, integer]: [u8; 2]) -> Ask {
    Ask {
        references: query.references,
        size: query.size,
        above_right: query.above_right,
        by4: query.by4.into(),
        bx4: query.bx4.into(),
        globals: query.globals.map(|([y, x], above)| Global {
            mv: Vector { y, x },
            above,
        }),
        integer,
        hp,
    }
}

/// A traced answer, with zeros where nothing was traced.
pub fn answer(found: &Found) -> Answer {
    let slot = |at: usize| found.slots.get(at).copied().unwrap_or(EMPTY);
    let vector = |[y, x]: [i16; 2]| Vector { y, x };
    Answer {
        count: found.count,
        context: found.context,
        stack: std::array::from_fn::<_, SLOTS, _>(|at| Candidate {
            mv: slot(at).mv.map(vector),
            weight: slot(at).weight.into(),
        }),
    }
}

const EMPTY: Slot = Slot {
    mv: [[0; 2]; 2],
    weight: 0,
};
