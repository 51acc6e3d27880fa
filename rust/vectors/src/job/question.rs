//! A batch of jobs, with what is done with it.

use crate::damage::Damage;
use crate::load::question::FieldLen;
use crate::question::FrameQuestion;
use crate::record::CELL_LEN;
use crate::record::RECORD_LEN;
use oracle::jobs::Prepared;
use oracle::paper;
use oracle::paper::FrameRecord;
use oracle::paper::Handed;
use oracle::paper::Job;
use shared::desk::lent;
use shared::orders::Task;
use std::array;

/// The number of the records' buffer; those below are the fields'.
pub const RECORDS: u32 = 7;

/// A batch on a frame, whose record may be damaged.
#[derive(Clone)]
pub struct JobQuestion {
    pub frame: FrameQuestion,
    pub damage: Damage,
    /// The present bytes that the batch is handed; setup saw those of the frame.
    pub present: [u8; 7],
    pub records_len: u32,
    pub projection_len: u32,
    pub saved_len: u32,
    pub field: FieldLen,
    pub jobs: Vec<Job>,
    pub task: Task,
    pub patches: Vec<Patch>,
}

/// Cells or records of a buffer that all become the same one.
#[derive(Clone, Copy)]
pub struct Patch {
    pub buffer: u32,
    pub first: u32,
    pub count: u32,
    /// A cell, and zeros behind it; or a record.
    pub unit: [u8; 12],
}

/// The projection and the saved field.
#[derive(Clone, PartialEq)]
pub struct Written {
    pub projection: Vec<u8>,
    pub saved: Vec<u8>,
}

impl JobQuestion {
    /// A batch with buffers of the listed sizes.
    pub fn new(frame: FrameQuestion, jobs: Vec<Job>, task: Task) -> Self {
        let record = frame.record().expect("a batch's frame is accepted");
        let fit = |count: u64| u32::try_from(count).expect("a small frame");
        Self {
            frame,
            damage: Damage::NONE,
            present: frame.present,
            records_len: RECORD_LEN * fit(paper::listed_records(&record)),
            projection_len: CELL_LEN * 16 * record.n_blocks,
            saved_len: CELL_LEN * fit(paper::saved_cells(&record)),
            field: FieldLen::NONE,
            jobs,
            task,
            patches: Vec::new(),
        }
    }

    /// This question with something changed.
    pub fn with(&self, change: impl FnOnce(&mut Self)) -> Self {
        let mut changed = self.clone();
        change(&mut changed);
        changed
    }

    /// Puts cells into a field from row y, column x on.
    pub fn put(&mut self, field: u32, [y, x]: [u32; 2], count: u32, cell: [u8; 5]) {
        let mut unit = [0; 12];
        unit[..5].copy_from_slice(&cell);
        self.patches.push(Patch {
            buffer: field,
            first: y * self.stride() + x,
            count,
            unit,
        });
    }

    /// Puts records from a place on.
    pub fn put_records(&mut self, first: u32, count: u32, record: [u8; 12]) {
        self.patches.push(Patch {
            buffer: RECORDS,
            first,
            count,
            unit: record,
        });
    }

    /// Puts a record where a save reads it for cell (y, x).
    pub fn put_read(&mut self, job: usize, [y, x]: [u32; 2], record: [u8; 12]) {
        let job = self.jobs[job];
        let frame = self.frame.record().expect("a batch's frame is accepted");
        let tile_row = job.window.tile_row;
        let entries = paper::row_entries(&frame, tile_row, job.superblock_row, job.pass);
        let entry = entries[6 + 2 * (y as usize % 16)].expect("the row is in the table");
        self.put_records(entry as u32 + 2 * x + 1, 1, record);
    }

    fn stride(&self) -> u32 {
        16 * self.frame.description.width.div_ceil(128)
    }

    /// The listed size of a field in bytes, from the frame before its damage.
    pub fn listed(&self) -> u32 {
        CELL_LEN * self.stride() * self.frame.description.height.div_ceil(8)
    }

    /// The frame's record after the damage.
    pub fn record(&self) -> Result<FrameRecord, String> {
        Ok(self.damage.on(self.frame.record()?))
    }

    /// How many steps each job has.
    pub fn counts(&self) -> Result<Vec<u32>, String> {
        let record = self.record()?;
        let steps = |job| paper::steps(&record, job);
        Ok(self.jobs.iter().map(steps).collect())
    }

    /// The paper's answer.
    pub fn refusal(&self) -> Result<u8, String> {
        self.ask(|handed| paper::batch_answer(handed, &self.jobs))
    }

    /// The lent fields, zero but for the patches.
    pub fn fields(&self) -> [Vec<u8>; 7] {
        array::from_fn(|at| {
            let len = match self.field.field == at as u32 {
                true => self.field.len,
                false => self.listed(),
            };
            self.filled::<5>(at as u32, len)
        })
    }

    /// The lent records, zero but for the patches.
    pub fn records(&self) -> Vec<u8> {
        self.filled::<12>(RECORDS, self.records_len)
    }

    fn filled<const LEN: usize>(&self, buffer: u32, len: u32) -> Vec<u8> {
        let mut bytes = vec![0; len as usize];
        let (units, _) = bytes.as_chunks_mut::<LEN>();
        for patch in self.patches.iter().filter(|it| it.buffer == buffer) {
            let past = units.iter_mut().skip(patch.first as usize);
            past.take(patch.count as usize)
                .for_each(|unit| unit.copy_from_slice(&patch.unit[..LEN]));
        }
        bytes
    }

    /// Asks the paper with what the batch is handed.
    pub fn ask<T>(&self, ask: impl FnOnce(&Handed) -> T) -> Result<T, String> {
        let (fields, records) = (self.fields(), self.records());
        Ok(ask(&Handed {
            record: &self.record()?,
            present: self.present,
            fields: array::from_fn(|at| fields[at].as_slice()),
            records: &records,
            projection_len: self.projection_len.into(),
            saved_len: self.saved_len.into(),
        }))
    }

    /// The buffers before any job.
    pub fn lent(&self) -> Written {
        Written {
            projection: lent(self.projection_len as usize),
            saved: lent(self.saved_len as usize),
        }
    }

    /// The lent buffers after the Rust has run these jobs, each whole.
    pub fn run<'a>(&self, jobs: impl IntoIterator<Item = &'a Job>) -> Result<Written, String> {
        if !self.damage.is_none() {
            return Err("jobs are run on a damaged frame record".to_string());
        }
        let (fields, records) = (self.fields(), self.records());
        let fields = array::from_fn(|at| (self.present[at] == 1).then_some(fields[at].as_slice()));
        let mut written = self.lent();
        let Written { projection, saved } = &mut written;
        let mut run = Prepared::on_record(&self.record()?, fields, &records, projection, saved);
        for job in jobs {
            run.run(job).gave().ok_or("the Rust panicked in a job")?;
        }
        run.take(projection, saved);
        Ok(written)
    }
}
