//! Load. The port's projection and the Rust's go on together, and are compared whole after each
//! case.

use crate::codec;
use crate::fields;
use crate::frames;
use crate::names;
use crate::options::Options;
use crate::tally::Tally;
use crate::windows;
use jaskkovir::tmvs;
use jaskkovir::tmvs::Window;
use jaskkovir::Frame;
use oracle::load::Prepared;
use oracle::paper;
use oracle::paper::FrameRecord;
use shared::split_mix::SplitMix64;

const CELL_LEN: usize = 5;

/// Bytes lent behind the listed cells.
const MORE: usize = 13;

pub fn compare(options: &Options) -> Result<Tally, String> {
    let mut random = options.random(names::LOAD);
    let mut tally = Tally::default();
    for i in 0..options.cases(2_000, 40_000) {
        let limits = match i % 200 {
            0 => frames::LARGE,
            _ => frames::SMALL,
        };
        let record = frames::record(&mut random, limits);
        let mut run = Run::new(&mut random, record);
        for _ in 0..100 {
            run.load(&mut random, &mut tally)?;
        }
    }
    Ok(tally)
}

/// A frame with its buffers.
struct Run {
    record: FrameRecord,
    frame: [u8; Frame::LEN],
    fields: [Vec<u8>; 7],
    rust: Prepared,
    /// As the port leaves it, and as it should be.
    ours: Vec<u8>,
    wanted: Vec<u8>,
}

/// What a load is asked.
struct Question {
    frame: [u8; Frame::LEN],
    window: Window,
    present: [u8; 7],
    /// How much of each field, and of the projection, is lent.
    field_lens: [usize; 7],
    len: usize,
    /// A cell of a field that is replaced for this load.
    put: Option<(usize, usize, [u8; CELL_LEN])>,
}

impl Run {
    fn new(random: &mut SplitMix64, record: FrameRecord) -> Self {
        let listed = CELL_LEN * 16 * record.n_blocks as usize;
        let some: [u8; 241] = random.bytes();
        let wanted: Vec<u8> = some.into_iter().cycle().take(listed + MORE).collect();
        let fields: [_; 7] = std::array::from_fn(|_| fields::blocks(random, &record, MORE));
        let whole = CELL_LEN * paper::saved_cells(&record) as usize;
        let rust_fields = std::array::from_fn(|at: usize| Some(&fields[at][..whole]));
        let nowhere = windows::rust_window(&NOWHERE);
        Self {
            record,
            frame: codec::frame_bytes(&record),
            rust: Prepared::on_record(&record, &nowhere, rust_fields, &wanted[..listed]),
            fields,
            ours: wanted.clone(),
            wanted,
        }
    }

    fn load(&mut self, random: &mut SplitMix64, tally: &mut Tally) -> Result<(), String> {
        let question = self.question(random);
        let before = question
            .put
            .map(|(field, at, cell)| (field, at, self.put(field, at, cell)));
        let fields: [&[u8]; 7] =
            std::array::from_fn(|at| &self.fields[at][..question.field_lens[at]]);
        let wanted = paper::load_answer(
            &codec::frame_at(&question.frame),
            &windows::cut_window(&question.window),
            question.present,
            fields,
            question.len as u64,
        );
        tally.count(wanted);
        let projection = &mut self.ours[..question.len];
        let Question {
            frame,
            window,
            present,
            ..
        } = &question;
        let answer = tmvs::load_tmvs(frame, window, present, fields, projection);
        if wanted == 0 {
            self.answer(&question)?;
        }
        if answer != wanted || self.ours != self.wanted {
            self.tell(tally, &question, [answer, wanted]);
            self.ours.copy_from_slice(&self.wanted);
        }
        if let Some((field, at, cell)) = before {
            self.put(field, at, cell);
        }
        Ok(())
    }

    /// Brings the projection to what the Rust makes of it.
    fn answer(&mut self, question: &Question) -> Result<(), String> {
        let window = windows::rust_window(&question.window);
        self.rust.set_window(&window);
        let outcome = self.rust.try_call().gave();
        outcome.ok_or_else(|| format!("the Rust panicked: {window:?} on {:?}", self.record))?;
        let listed = self.wanted.len() - MORE;
        self.rust.take_projection(&mut self.wanted[..listed]);
        Ok(())
    }

    /// Replaces a cell, and gives the one before.
    fn put(&mut self, field: usize, at: usize, cell: [u8; CELL_LEN]) -> [u8; CELL_LEN] {
        self.rust.put_cell(field, at, cell);
        let (cells, _) = self.fields[field].as_chunks_mut();
        std::mem::replace(&mut cells[at], cell)
    }

    fn question(&self, random: &mut SplitMix64) -> Question {
        let mut frame = self.frame;
        if random.below(100) == 0 {
            frames::ruin(random, &mut frame);
        }
        let mut present = [1; 7];
        if random.below(10) == 0 {
            present[random.below(7)] = [0, 0, 0, 2][random.below(4)];
        }
        let mut field_lens = self.fields.each_ref().map(Vec::len);
        let mut len = self.ours.len();
        if random.below(20) == 0 {
            let len = match random.below(8) {
                7 => &mut len,
                field => &mut field_lens[field],
            };
            *len -= [random.below(*len), random.below(2 * MORE)][random.below(2)];
        }
        let window = windows::any(random, &self.record);
        Question {
            frame,
            present,
            field_lens,
            len,
            put: (random.below(8) == 0).then(|| self.damage(random, &window)),
            window,
        }
    }

    /// A cell with a byte changed; often one that a load may read.
    fn damage(&self, random: &mut SplitMix64, window: &Window) -> (usize, usize, [u8; CELL_LEN]) {
        let field = [0, 0, 1, 4, 5, 6, 2][random.below(7)];
        let (cells, _) = self.fields[field].as_chunks();
        let listed = paper::saved_cells(&self.record) as usize;
        let window = windows::cut_window(window);
        let row = window.row_start as usize % 4096 + random.below(3);
        let column = (window.col_start as usize % 4096 + random.below(12)).saturating_sub(9);
        let near = row * self.record.stride as usize + column;
        let at = match random.below(4) {
            0 => random.below(listed),
            _ => near % listed,
        };
        let mut cell: [u8; CELL_LEN] = cells[at];
        cell[random.below(CELL_LEN)] = random.bytes::<1>()[0];
        (field, at, cell)
    }

    fn tell(&self, tally: &mut Tally, question: &Question, [answer, wanted]: [u8; 2]) {
        let Question {
            window,
            present,
            field_lens,
            len,
            ..
        } = question;
        let differing = self.ours.iter().zip(&self.wanted).position(|(a, b)| a != b);
        let record = codec::frame_at(&question.frame);
        let size = u64::from(self.record.width) + u64::from(self.record.height);
        tally.differ(size, || {
            format!(
                "{window:?}, present {present:?}, {field_lens:?} and {len} bytes lent, on \
                 {record:?}: ours {answer}, wanted {wanted}, first differing byte {differing:?}"
            )
        });
    }
}

const NOWHERE: Window = Window {
    tile_row: 0,
    left: 0,
    right: 0,
    top: 0,
    bottom: 0,
};
