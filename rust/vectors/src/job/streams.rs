//! Eight jobs on frames of real streams, in drawn orders.

use crate::job::load;
use crate::job::question::JobQuestion;
use crate::job::save;
use crate::load::edges::window;
use crate::question::FrameQuestion;
use crate::real::RealFrame;
use crate::sequences;
use crate::sequences::Event;
use oracle::paper;
use oracle::paper::FrameRecord;
use oracle::paper::Job;
use oracle::Window;
use shared::folder;
use shared::orders::Task;
use std::collections::HashMap;
use std::path::Path;

/// Streams, and frames of them; the seed of a batch is its place here.
const FRAMES: [(&str, u16); 5] = [
    ("o16_long192_svt", 13),
    ("o16_long192_svt", 21),
    ("o20_half384", 4),
    ("o20_half384", 8),
    ("o25_big512_svt", 4),
];

const LISTS: u32 = 250;

/// Superblocks don't reach over a column that is a multiple of this, so a save may end there.
const SPLIT: u32 = 16;

pub fn questions() -> Result<Vec<JobQuestion>, String> {
    (1..)
        .zip(FRAMES)
        .map(|(seed, (stream, number))| question(stream, number, seed))
        .collect()
}

fn question(stream: &str, number: u16, seed: u32) -> Result<JobQuestion, String> {
    let folder = Path::new(concat!(env!("CARGO_MANIFEST_DIR"), "/../../real/sequences"));
    let bytes = folder::read(&folder.join(stream).with_extension("seq"))?;
    let mut traced = Traced::default();
    for event in sequences::events(&bytes)? {
        traced.take(&event)?;
        // The second save of the frame: both halves of the projection's rows are above it or in it.
        if traced.number == number && traced.saves == 2 {
            return traced.question(Task::Drawn { seed, lists: LISTS });
        }
    }
    Err(format!("{stream}: no frame {number} with two saves"))
}

/// A run of cells: where it starts in its field, its length, and the cell.
type Run = ([u32; 2], u32, [u8; 5]);

/// What a traced decoder had: the saved fields by frame, and of its last frame the records.
#[derive(Default)]
struct Traced {
    number: u16,
    /// How many saves the frame has seen, and the window of the last.
    saves: u32,
    saved: Option<Window>,
    frame: Option<(FrameQuestion, FrameRecord)>,
    /// The frames whose fields are lent.
    lent: Vec<u16>,
    fields: HashMap<u16, Vec<Run>>,
    entries: Vec<Option<u64>>,
    superblock_row: u32,
    records: Vec<[u8; 12]>,
}

impl Traced {
    fn take(&mut self, event: &Event) -> Result<(), String> {
        match event.letter {
            b'F' => self.set_up(event.body),
            b'R' => self.set_row(event.body),
            b'S' => self.splat(event.body),
            b'V' => self.save(event.body),
            _ => Ok(()),
        }
    }

    fn set_up(&mut self, body: &[u8]) -> Result<(), String> {
        let whole = body.try_into().expect("the event has its length");
        let question = RealFrame::of_event(whole).question();
        let record = question.record()?;
        self.number = number(body, 0) as u16;
        self.saves = 0;
        self.saved = None;
        self.lent = (0..7).map(|at| number(body, 72 + 2 * at) as u16).collect();
        self.fields.insert(self.number, Vec::new());
        self.records = vec![[0; 12]; paper::listed_records(&record) as usize];
        self.frame = Some((question, record));
        Ok(())
    }

    fn record(&self) -> Result<&FrameRecord, String> {
        let (_, record) = self.frame.as_ref().ok_or("an event before any frame")?;
        Ok(record)
    }

    fn set_row(&mut self, body: &[u8]) -> Result<(), String> {
        self.superblock_row = number(body, 9);
        let [tile_row, pass] = [body[0], body[11]].map(u32::from);
        let entries = paper::row_entries(self.record()?, tile_row, self.superblock_row, pass);
        self.entries = entries.to_vec();
        Ok(())
    }

    /// Lays the block's record over the rows that the table has.
    fn splat(&mut self, body: &[u8]) -> Result<(), String> {
        let [y, x] = [0, 2].map(|at| number(body, at) as usize);
        let [width, height] = [body[4], body[5]].map(usize::from);
        let record: [u8; 12] = body[6..].try_into().map_err(|_| "a splat has its record")?;
        for row in (y & 31) + 5..(y & 31) + 5 + height {
            if let Some(Some(entry)) = self.entries.get(row) {
                self.records[*entry as usize + x..][..width].fill(record);
            }
        }
        Ok(())
    }

    /// Runs of cells stand in the event; all others have no reference.
    fn save(&mut self, body: &[u8]) -> Result<(), String> {
        let [left, right, top, bottom] = [1, 3, 5, 7].map(|at| number(body, at));
        self.saved = Some(window([left, right], [top, bottom]));
        self.saves += 1;
        let (runs, _) = body[11..].as_chunks::<8>();
        let runs = runs.iter().map(|&[row, column, len, cell @ ..]| {
            let [row, column, len] = [row, column, len].map(u32::from);
            ([row, column], len, cell)
        });
        let field = self.fields.get_mut(&self.number);
        field.ok_or("a save before any frame")?.extend(runs);
        Ok(())
    }

    /// Four loads and four saves, with the fields of the used references and the records that are
    /// read.
    fn question(&self, task: Task) -> Result<JobQuestion, String> {
        let (frame, record) = self.frame.as_ref().ok_or("no frame")?;
        let saved = self.saved.ok_or("no save")?;
        let [loads, saves] = [self.loads(record, saved), self.saves(saved)];
        let jobs = loads.into_iter().zip(saves).flat_map(|(a, b)| [a, b]);
        let mut question = JobQuestion::new(*frame, jobs.collect(), task);
        for slot in &record.slots[..record.n_mfmvs.into()] {
            let lent = self.lent[usize::from(slot.reference)];
            for &(place, len, cell) in &self.fields[&lent] {
                question.put(slot.reference.into(), place, len, cell);
            }
        }
        self.put_records(record, saved, &mut question);
        Ok(question)
    }

    /// 16 rows that end with those of the save, in quarters.
    fn loads(&self, record: &FrameRecord, saved: Window) -> [Job; 4] {
        let end = saved.row_end;
        let halves = [[end - 16, end - 8], [end - 8, end]];
        let columns = [[0, SPLIT / 2], [SPLIT / 2, record.iw8]];
        [[0, 0], [0, 1], [1, 0], [1, 1]].map(|[y, x]| load(window(columns[x], halves[y])))
    }

    /// The save's own window in quarters.
    fn saves(&self, saved: Window) -> [Job; 4] {
        let middle = (saved.row_start + saved.row_end) / 2;
        let halves = [[saved.row_start, middle], [middle, saved.row_end]];
        let columns = [[0, SPLIT], [SPLIT, saved.col_end]];
        [[0, 0], [0, 1], [1, 0], [1, 1]].map(|[y, x]| Job {
            superblock_row: self.superblock_row,
            ..save(window(columns[x], halves[y]))
        })
    }

    /// The odd rows of records, which saves read, in runs.
    fn put_records(&self, record: &FrameRecord, saved: Window, question: &mut JobQuestion) {
        for y in saved.row_start..saved.row_end.min(record.ih8) {
            let entry = self.entries[6 + 2 * (y as usize % 16)].expect("the row is in the table");
            let mut first = entry as usize;
            let row = &self.records[first..first + record.iw4 as usize];
            for run in row.chunk_by(PartialEq::eq) {
                question.put_records(first as u32, run.len() as u32, run[0]);
                first += run.len();
            }
        }
    }
}

fn number(body: &[u8], at: usize) -> u32 {
    u16::from_le_bytes([body[at], body[at + 1]]).into()
}
