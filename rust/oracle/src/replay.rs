//! The program `replay`: a capture file, read and played whole. What is refused is the paper's to
//! say; the frame is set up and the jobs are run by the Rust.

use crate::frame;
use crate::jobs;
use crate::leaves;
use crate::leaves::Cell;
use crate::paper;
use crate::paper::capture;
use crate::paper::capture::Capture;
use crate::paper::FrameRecord;
use crate::paper::Handed;
use crate::record::frame_record;
use std::fmt;
use std::fmt::Display;
use std::fmt::Formatter;

const CELL_LEN: usize = 5;

/// What the cells are before the first job: INVALID with reference 0, and zero.
const PROJECTED: [u8; CELL_LEN] = [0, 128, 0, 128, 0];
const SAVED: [u8; CELL_LEN] = [0; CELL_LEN];

/// What became of a file.
pub enum Replayed {
    /// The refusal of the file or of its batch.
    Refused(u8),
    Played(Played),
}

/// What an accepted file's jobs leave in buffers of the listed sizes.
pub struct Played {
    /// How many each job has, in list order.
    pub steps: Vec<u32>,
    /// Cells in a row of either buffer.
    pub stride: usize,
    pub projection: Vec<u8>,
    pub saved: Vec<u8>,
}

/// Plays a file over buffers of the listed sizes.
pub fn replay(file: &[u8]) -> Replayed {
    match replay_accepted(file) {
        Ok(played) => Replayed::Played(played),
        Err(number) => Replayed::Refused(number),
    }
}

fn replay_accepted(file: &[u8]) -> Result<Played, u8> {
    let ready = Ready::new(file)?;
    let projected = 16 * ready.record.n_blocks as usize;
    let listed = paper::saved_cells(&ready.record) as usize;
    let [mut projection, mut saved] = [projected, listed].map(|cells| vec![0; CELL_LEN * cells]);
    Ok(Played {
        steps: ready.play(&mut projection, &mut saved)?,
        stride: ready.record.stride as usize,
        projection,
        saved,
    })
}

/// Plays a file over buffers of any lengths, and gives the steps of each job, or the refusal, which
/// writes nothing.
pub fn play(file: &[u8], projection: &mut [u8], saved: &mut [u8]) -> Result<Vec<u32>, u8> {
    Ready::new(file)?.play(projection, saved)
}

/// A file whose frame is set up.
struct Ready<'a> {
    capture: Capture<'a>,
    record: FrameRecord,
}

impl<'a> Ready<'a> {
    fn new(file: &'a [u8]) -> Result<Self, u8> {
        let capture = capture::read(file)?;
        let present = capture.fields.map(|field| field.is_some());
        let finished = frame::setup_without_buffers(&capture.description, present);
        let finished = finished.gave().expect("the Rust sets up what is accepted");
        Ok(Self {
            record: frame_record(&capture.description, &finished),
            capture,
        })
    }

    fn play(&self, projection: &mut [u8], saved: &mut [u8]) -> Result<Vec<u32>, u8> {
        let Self { capture, record } = self;
        let records = capture.records.unwrap_or_default();
        let handed = Handed {
            record,
            present: capture.present(),
            fields: capture.fields.map(Option::unwrap_or_default),
            records,
            projection_len: projection.len() as u64,
            saved_len: saved.len() as u64,
        };
        match paper::batch_answer(&handed, &capture.jobs) {
            0 => {}
            answer => return Err(answer),
        }
        fill(projection, PROJECTED);
        fill(saved, SAVED);
        let fields = capture.fields;
        let mut run = jobs::Prepared::on_record(record, fields, records, projection, saved);
        for job in &capture.jobs {
            let outcome = run.run(job).gave();
            outcome.unwrap_or_else(|| panic!("the Rust panicked: {job:?} on {record:?}"));
        }
        run.take(projection, saved);
        let steps = |job| paper::steps(record, job);
        Ok(capture.jobs.iter().map(steps).collect())
    }
}

/// What stands behind the last whole cell stays.
fn fill(buffer: &mut [u8], cell: [u8; CELL_LEN]) {
    buffer.as_chunks_mut().0.fill(cell);
}

/// The program's output, whole.
pub fn text(replayed: &Replayed) -> String {
    match replayed {
        Replayed::Refused(number) => format!("refused {number}\n"),
        Replayed::Played(played) => played.to_string(),
    }
}

impl Display for Played {
    fn fmt(&self, f: &mut Formatter) -> fmt::Result {
        for (job, steps) in self.steps.iter().enumerate() {
            // Of an accepted batch every job is.
            writeln!(f, "job {job} answer 0 steps {steps}")?;
        }
        let has_vector = |cell: &Cell| !leaves::is_invalid(cell.mv.y, cell.mv.x);
        self.write_cells(f, 'p', &self.projection, has_vector)?;
        self.write_cells(f, 's', &self.saved, |cell| cell.reference != 0)
    }
}

impl Played {
    /// A line for each cell that is to be shown, by row, then column.
    fn write_cells(
        &self,
        f: &mut Formatter,
        letter: char,
        buffer: &[u8],
        is_shown: impl Fn(&Cell) -> bool,
    ) -> fmt::Result {
        let cells = buffer
            .as_chunks()
            .0
            .iter()
            .map(|&bytes| leaves::cell(bytes));
        for (at, cell) in cells.enumerate().filter(|(_, cell)| is_shown(cell)) {
            let [row, column] = [at / self.stride, at % self.stride];
            let Cell { mv, reference } = cell;
            writeln!(f, "{letter} {row} {column} {} {} {reference}", mv.y, mv.x)?;
        }
        Ok(())
    }
}
