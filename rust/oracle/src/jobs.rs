//! Jobs: loads and saves of one frame, run whole.

use crate::asked::SavePlace;
use crate::leaves;
use crate::load;
use crate::paper::FrameRecord;
use crate::paper::Job;
use crate::save;
use crate::Outcome;

/// A frame and its buffers in the Rust's own types. The buffers go on from job to job.
pub struct Prepared {
    load: load::Prepared,
    save: save::Prepared,
    ih8: u32,
}

impl Prepared {
    /// Holds the whole records and cells of the lent bytes.
    pub fn on_record(
        record: &FrameRecord,
        fields: [Option<&[u8]>; 7],
        records: &[u8],
        projection: &[u8],
        saved: &[u8],
    ) -> Self {
        let mut held = records.to_vec();
        held.as_chunks_mut().0.iter_mut().for_each(hold);
        Self {
            load: load::Prepared::on_record(record, &SavePlace::NOWHERE.window, fields, projection),
            save: save::Prepared::on_record(record, &SavePlace::NOWHERE, &held, saved),
            ih8: record.ih8,
        }
    }

    /// Runs a job that the paper admits. False where the Rust can't be asked: where the rows of a
    /// save start past the frame it may stop, and by the paper nothing changes.
    pub fn run(&mut self, job: &Job) -> Outcome<bool> {
        if job.kind == 1 && job.window.row_start > self.ih8 {
            return Outcome::Gave(false);
        }
        let outcome = if job.kind == 0 {
            self.load.set_window(&job.window);
            self.load.try_call()
        } else {
            self.save.set_place(&job.place());
            self.save.try_call()
        };
        match outcome {
            Outcome::Gave(()) => Outcome::Gave(true),
            Outcome::Panicked => Outcome::Panicked,
        }
    }

    /// Replaces projection and saved field, which keep their lengths.
    pub fn put(&mut self, projection: &[u8], saved: &[u8]) {
        self.load.put_projection(projection);
        self.save.put_field(saved);
    }

    /// Copies projection and saved field out. What stands behind the last whole cells stays.
    pub fn take(&self, projection: &mut [u8], saved: &mut [u8]) {
        self.load.take_projection(projection);
        self.save.take_field(saved);
    }

    /// Replaces one cell of a field that is lent.
    pub fn put_cell(&mut self, reference: usize, at: usize, cell: [u8; 5]) {
        self.load.put_cell(reference, at, cell);
    }

    /// Replaces one record.
    pub fn put_record(&mut self, at: usize, mut record: [u8; 12]) {
        hold(&mut record);
        self.save.put_record(at, record);
    }
}

/// The Rust can't hold a record whose size code is none. An admitted save doesn't read it, so that
/// any other will do.
fn hold(record: &mut [u8; 12]) {
    if leaves::record(*record).is_none() {
        record[10] = 0;
    }
}
