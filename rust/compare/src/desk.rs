//! A frame with the buffers of its loads and saves: the port's, and the Rust's.

use crate::batches;
use crate::codec;
use crate::fields;
use cases::layout;
use jaskkovir::Frame;
use jaskkovir::Job;
use oracle::jobs::Prepared;
use oracle::paper;
use oracle::paper::FrameRecord;
use shared::split_mix::SplitMix64;

const CELL_LEN: usize = 5;

const RECORD_LEN: usize = 12;

/// Bytes lent behind the listed cells and records.
pub const MORE: usize = 17;

/// The two parts that jobs write.
#[derive(Clone, Default, PartialEq, Eq)]
pub struct Written {
    pub projection: Vec<u8>,
    pub saved: Vec<u8>,
}

impl Written {
    /// The listed cells of both.
    fn listed(&mut self) -> [&mut [u8]; 2] {
        [&mut self.projection, &mut self.saved].map(|part| {
            let len = part.len() - MORE;
            &mut part[..len]
        })
    }
}

pub struct Desk {
    pub record: FrameRecord,
    pub frame: [u8; Frame::LEN],
    pub fields: [Vec<u8>; 7],
    pub records: Vec<u8>,
    /// As the port leaves them, and as they should be.
    pub ours: Written,
    pub wanted: Written,
    rust: Prepared,
}

/// A cell of a field, or a record, and what is put there.
#[derive(Clone, Copy)]
pub enum Put {
    Cell(usize, usize, [u8; CELL_LEN]),
    Record(usize, [u8; RECORD_LEN]),
}

impl Desk {
    pub fn new(random: &mut SplitMix64, record: FrameRecord) -> Self {
        let projected = CELL_LEN * 16 * record.n_blocks as usize;
        let listed = CELL_LEN * paper::saved_cells(&record) as usize;
        let some: [u8; 241] = random.bytes();
        let lent = |len: usize| some.into_iter().cycle().take(len + MORE).collect();
        let [projection, saved]: [Vec<u8>; 2] = [projected, listed].map(lent);
        let fields: [_; 7] = std::array::from_fn(|_| fields::blocks(random, &record, MORE));
        let records = layout::blocks(random, &record, MORE);
        let rust_fields = std::array::from_fn(|at: usize| Some(&fields[at][..listed]));
        let whole = &records[..records.len() - MORE];
        let wanted = Written { projection, saved };
        let [before, field] = [&wanted.projection[..projected], &wanted.saved[..listed]];
        Self {
            frame: codec::frame_bytes(&record),
            rust: Prepared::on_record(&record, rust_fields, whole, before, field),
            record,
            fields,
            records,
            ours: wanted.clone(),
            wanted,
        }
    }

    /// Runs a whole job in the Rust. False where the Rust can't be asked.
    pub fn run(&mut self, job: &Job) -> Result<bool, String> {
        let outcome = self.rust.run(&batches::for_paper(job)).gave();
        outcome.ok_or_else(|| format!("the Rust panicked: {job:?} on {:?}", self.record))
    }

    /// Brings what should be to what the Rust came to.
    pub fn take(&mut self) {
        let [projection, saved] = self.wanted.listed();
        self.rust.take(projection, saved);
    }

    /// Goes on from what the port left.
    pub fn go_on(&mut self) {
        self.wanted.clone_from(&self.ours);
        let [projection, saved] = self.wanted.listed();
        self.rust.put(projection, saved);
    }

    /// Replaces a cell or record, and gives the one before.
    pub fn put(&mut self, put: Put) -> Put {
        match put {
            Put::Cell(field, at, cell) => {
                self.rust.put_cell(field, at, cell);
                let (cells, _) = self.fields[field].as_chunks_mut();
                Put::Cell(field, at, std::mem::replace(&mut cells[at], cell))
            }
            Put::Record(at, record) => {
                self.rust.put_record(at, record);
                let (places, _) = self.records.as_chunks_mut();
                Put::Record(at, std::mem::replace(&mut places[at], record))
            }
        }
    }
}
