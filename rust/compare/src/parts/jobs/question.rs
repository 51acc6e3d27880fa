//! What an admission is asked: jobs, lent parts, and what is damaged of them.

use crate::batches;
use crate::codec;
use crate::desk::Desk;
use crate::desk::Put;
use crate::desk::Written;
use crate::desk::MORE;
use crate::frames;
use crate::tally::Tally;
use jaskkovir::jobs;
use jaskkovir::jobs::Sources;
use jaskkovir::Frame;
use jaskkovir::Job;
use oracle::paper;
use oracle::paper::FrameRecord;
use oracle::paper::Handed;
use shared::split_mix::SplitMix64;

/// What an admission, and the steps after it, are asked.
pub struct Question {
    frame: [u8; Frame::LEN],
    /// The same for the paper.
    record: FrameRecord,
    present: [u8; 7],
    /// With bytes behind the last whole job.
    pub jobs: Vec<u8>,
    /// How much of each field, and of records, projection and saved field, is lent.
    field_lens: [usize; 7],
    records_len: usize,
    lens: [usize; 2],
    pub put: Option<Put>,
}

impl Question {
    pub fn any(random: &mut SplitMix64, desk: &Desk) -> Self {
        let mut jobs = batches::any(random, &desk.record);
        let put = (random.below(6) == 0).then(|| bad(random, desk, &jobs));
        if random.below(5) == 0 {
            batches::damage(random, &desk.record, &mut jobs);
        }
        let mut bytes: Vec<u8> = jobs.iter().flat_map(Job::to_bytes).collect();
        bytes.extend(&random.bytes::<{ Job::LEN - 1 }>()[..random.below(Job::LEN)]);
        let mut frame = desk.frame;
        if random.below(100) == 0 {
            frames::ruin(random, &mut frame);
        }
        let mut question = Self {
            record: codec::frame_at(&frame),
            frame,
            present: [1; 7],
            jobs: bytes,
            field_lens: desk.fields.each_ref().map(Vec::len),
            records_len: desk.records.len(),
            lens: [desk.ours.projection.len(), desk.ours.saved.len()],
            put,
        };
        if random.below(10) == 0 {
            question.shorten(random);
        }
        question
    }

    /// Lends less: a field not at all, or a part too short.
    fn shorten(&mut self, random: &mut SplitMix64) {
        let len = match random.below(10) {
            0 => &mut self.records_len,
            at @ 1..3 => &mut self.lens[at - 1],
            at @ 3..6 => &mut self.field_lens[[0, 4, 6][at - 3]],
            _ => {
                self.present[random.below(7)] = [0, 0, 0, 2][random.below(4)];
                return;
            }
        };
        *len -= [random.below(*len), random.below(2 * MORE)][random.below(2)];
    }

    fn fields<'a>(&self, desk: &'a Desk) -> [&'a [u8]; 7] {
        std::array::from_fn(|at| &desk.fields[at][..self.field_lens[at]])
    }

    pub fn handed<'a>(&'a self, desk: &'a Desk) -> Handed<'a> {
        Handed {
            record: &self.record,
            present: self.present,
            fields: self.fields(desk),
            records: &desk.records[..self.records_len],
            projection_len: self.lens[0] as u64,
            saved_len: self.lens[1] as u64,
        }
    }

    fn sources<'a>(&'a self, desk: &'a Desk) -> Sources<'a> {
        Sources {
            frame: &self.frame,
            present: &self.present,
            fields: self.fields(desk),
            records: &desk.records[..self.records_len],
        }
    }

    /// Asks for admission, and gives the paper's answer.
    pub fn admit(&self, desk: &Desk, tally: &mut Tally) -> u8 {
        let wanted = paper::batch_answer(&self.handed(desk), &for_paper(&self.jobs));
        tally.count(wanted);
        let Written { projection, saved } = &desk.ours;
        let [projected, listed] = self.lens;
        let [projection, saved] = [&projection[..projected], &saved[..listed]];
        let answer = jobs::admit(&self.sources(desk), &self.jobs, projection, saved);
        let as_lent = desk.ours == desk.wanted;
        if answer != wanted || !as_lent {
            self.tell(tally, || {
                format!("admitted: ours {answer}, wanted {wanted}, as lent: {as_lent}")
            });
        }
        wanted
    }

    /// The port's step.
    pub fn step(&self, desk: &Desk, bytes: &mut [u8], k: usize, written: &mut Written) -> u8 {
        let [projected, listed] = self.lens;
        jobs::step(
            &self.sources(desk),
            bytes,
            k,
            &mut written.projection[..projected],
            &mut written.saved[..listed],
        )
    }

    pub fn tell(&self, tally: &mut Tally, what: impl FnOnce() -> String) {
        let size = u64::from(self.record.width) + u64::from(self.record.height);
        let size = 1000 * self.jobs.len() as u64 + size;
        tally.differ(size, || {
            let Self {
                record,
                present,
                field_lens,
                records_len,
                lens,
                ..
            } = self;
            format!(
                "{}: {:?}, present {present:?}, {field_lens:?}, {records_len} and {lens:?} bytes \
                 lent, on {record:?}",
                what(),
                all(&self.jobs)
            )
        });
    }
}

/// A cell or a record with a byte changed; often one that a job reads.
fn bad(random: &mut SplitMix64, desk: &Desk, jobs: &[Job]) -> Put {
    let job = &jobs[random.below(jobs.len())];
    let byte = random.bytes::<1>()[0];
    let [row, column] = [random.below(8), random.below(10)];
    if job.kind == 0 {
        let field = [0, 1, 4, 5, 6][random.below(5)];
        let listed = paper::saved_cells(&desk.record) as usize;
        let column = (usize::from(job.left) + column).saturating_sub(4);
        let at = (usize::from(job.top) + row) * desk.record.stride as usize + column;
        let mut cell: [u8; 5] = desk.fields[field].as_chunks().0[at % listed];
        cell[random.below(5)] = byte;
        return Put::Cell(field, at % listed, cell);
    }
    let listed = paper::listed_records(&desk.record) as usize;
    let parity = u32::from(job.superblock_row) % 2;
    let entries = paper::row_entries(&desk.record, job.tile_row.into(), parity, job.pass.into());
    let entry = entries[6 + 2 * ((usize::from(job.top) + row) % 16)].unwrap_or(0) as usize;
    let at = (entry + 2 * (usize::from(job.left) + column) + 1) % listed;
    let mut record: [u8; 12] = desk.records.as_chunks().0[at];
    record[random.below(12)] = byte;
    Put::Record(at, record)
}

pub fn all(bytes: &[u8]) -> Vec<Job> {
    let (whole, _) = bytes.as_chunks();
    whole.iter().map(Job::from_bytes).collect()
}

pub fn for_paper(bytes: &[u8]) -> Vec<paper::Job> {
    all(bytes).iter().map(batches::for_paper).collect()
}
