//! Save. The port's field and the Rust's go on together, and are compared whole after each case.

use crate::codec;
use crate::frames;
use crate::frames::cut;
use crate::names;
use crate::options::Options;
use crate::tally::Tally;
use crate::windows;
use cases::layout;
use jaskkovir::tmvs;
use jaskkovir::tmvs::Saving;
use jaskkovir::Frame;
use oracle::leaves;
use oracle::paper;
use oracle::paper::FrameRecord;
use oracle::save::Place;
use oracle::save::Prepared;
use shared::split_mix::SplitMix64;

const RECORD_LEN: usize = 12;

/// Bytes lent behind the listed records, and behind the listed cells.
const MORE: usize = 17;

/// The Rust multiplies a superblock row's number by up to 32 in 32 bits.
const ROWS_ASKED: usize = 1 << 24;

pub fn compare(options: &Options) -> Result<Tally, String> {
    let mut random = options.random(names::SAVE);
    let mut tally = Tally::default();
    for i in 0..options.cases(2_000, 40_000) {
        let limits = match i % 200 {
            0 => frames::LARGE,
            _ => frames::SMALL,
        };
        let record = frames::record(&mut random, limits);
        let mut run = Run::new(&mut random, record);
        for _ in 0..100 {
            run.save(&mut random, &mut tally)?;
        }
    }
    Ok(tally)
}

/// A frame with its buffers.
struct Run {
    record: FrameRecord,
    frame: [u8; Frame::LEN],
    records: Vec<u8>,
    rust: Prepared,
    /// As the port leaves it, and as it should be.
    ours: Vec<u8>,
    wanted: Vec<u8>,
}

/// What a save is asked.
struct Question {
    frame: [u8; Frame::LEN],
    saving: Saving,
    /// How much of records and field is lent.
    lens: [usize; 2],
    /// A record that is replaced for this save.
    put: Option<(usize, [u8; RECORD_LEN])>,
}

impl Run {
    fn new(random: &mut SplitMix64, record: FrameRecord) -> Self {
        let records = layout::blocks(random, &record, MORE);
        let listed = 5 * paper::saved_cells(&record) as usize;
        let some: [u8; 241] = random.bytes();
        let wanted: Vec<u8> = some.into_iter().cycle().take(listed + MORE).collect();
        let whole = &records[..records.len() - MORE];
        Self {
            record,
            frame: codec::frame_bytes(&record),
            rust: Prepared::on_record(&record, &Place::NOWHERE, whole, &wanted[..listed]),
            records,
            ours: wanted.clone(),
            wanted,
        }
    }

    fn save(&mut self, random: &mut SplitMix64, tally: &mut Tally) -> Result<(), String> {
        let question = self.question(random);
        let before = question.put.map(|(at, record)| (at, self.put(at, record)));
        let [records_len, field_len] = question.lens;
        let records = &self.records[..records_len];
        let place = cut_place(&question.saving);
        let record = codec::frame_at(&question.frame);
        let wanted = paper::save_answer(&record, &place, records, field_len as u64);
        tally.count(wanted);
        let field = &mut self.ours[..field_len];
        let answer = tmvs::save_tmvs(&question.frame, &question.saving, records, field);
        if wanted == 0 {
            self.answer(tally, &question)?;
        }
        if answer != wanted || self.ours != self.wanted {
            self.tell(tally, &question, [answer, wanted]);
            self.ours.copy_from_slice(&self.wanted);
        }
        if let Some((at, record)) = before {
            self.put(at, record);
        }
        Ok(())
    }

    /// Brings the field to what the Rust makes of it.
    fn answer(&mut self, tally: &mut Tally, question: &Question) -> Result<(), String> {
        // Where the rows start past the frame, the Rust may stop; by the paper nothing changes.
        if question.saving.window.top > self.record.ih8 as usize {
            tally.count_paper_alone();
            return Ok(());
        }
        let place = Place {
            window: windows::rust_window(&question.saving.window),
            ..cut_place(&question.saving)
        };
        self.rust.set_place(&place);
        let outcome = self.rust.try_call().gave();
        outcome.ok_or_else(|| format!("the Rust panicked: {place:?} on {:?}", self.record))?;
        let listed = self.wanted.len() - MORE;
        self.rust.take_field(&mut self.wanted[..listed]);
        Ok(())
    }

    /// Replaces a record, and gives the one before. The Rust can't hold one whose size code is none:
    /// an accepted save doesn't read it.
    fn put(&mut self, at: usize, record: [u8; RECORD_LEN]) -> [u8; RECORD_LEN] {
        let (places, _) = self.records.as_chunks_mut();
        if leaves::record(record).is_some() {
            self.rust.put_record(at, record);
        }
        std::mem::replace(&mut places[at], record)
    }

    fn question(&self, random: &mut SplitMix64) -> Question {
        let mut frame = self.frame;
        if random.below(100) == 0 {
            frames::ruin(random, &mut frame);
        }
        let mut lens = [self.records.len(), self.ours.len()];
        if random.below(40) == 0 {
            let len = &mut lens[random.below(2)];
            *len -= [random.below(*len), random.below(2 * MORE)][random.below(2)];
        }
        let saving = self.saving(random);
        Question {
            frame,
            put: (random.below(8) == 0).then(|| self.damage(random, &saving)),
            saving,
            lens,
        }
    }

    /// Most superblock rows have the window's rows in their table.
    fn saving(&self, random: &mut SplitMix64) -> Saving {
        let window = windows::any(random, &self.record);
        let side = self.record.sbsz as usize / 2;
        Saving {
            window,
            superblock_row: match random.below(20) {
                0 => random.below(1 << 28),
                1 => (1 << 32) + random.below(4),
                2 => random.below(4),
                _ => window.top / side,
            },
            pass: match random.below(30) {
                0 => [0, 3, 257, (1 << 32) + 1][random.below(4)],
                _ => 1 + random.below(2),
            },
        }
    }

    /// A record with a byte changed; often one that the save reads.
    fn damage(&self, random: &mut SplitMix64, saving: &Saving) -> (usize, [u8; RECORD_LEN]) {
        let (places, _) = self.records.as_chunks();
        let listed = paper::listed_records(&self.record) as usize;
        let window = windows::cut_window(&saving.window);
        let row = window.row_start as usize % 16 + random.below(2);
        let pass = saving.pass.min(2) as u32;
        let parity = saving.superblock_row as u32 % 2;
        let entries = paper::row_entries(&self.record, window.tile_row.min(63), parity, pass);
        let column = window.col_start as usize % 4096 + random.below(4);
        let read = entries[6 + 2 * (row % 16)].map(|entry| entry as usize + 2 * column + 1);
        let at = read
            .filter(|&at| at < listed && random.below(4) > 0)
            .unwrap_or_else(|| random.below(listed));
        let mut record: [u8; RECORD_LEN] = places[at];
        record[random.below(RECORD_LEN)] = random.bytes::<1>()[0];
        (at, record)
    }

    fn tell(&self, tally: &mut Tally, question: &Question, [answer, wanted]: [u8; 2]) {
        let Question { saving, lens, .. } = question;
        let differing = self.ours.iter().zip(&self.wanted).position(|(a, b)| a != b);
        let record = codec::frame_at(&question.frame);
        let size = u64::from(self.record.width) + u64::from(self.record.height);
        tally.differ(size, || {
            format!(
                "{saving:?}, {lens:?} bytes lent, on {record:?}: ours {answer}, wanted {wanted}, \
                 first differing byte {differing:?}"
            )
        });
    }
}

/// For the paper. Of a far superblock row only the parity counts.
fn cut_place(saving: &Saving) -> Place {
    let near = saving.superblock_row < ROWS_ASKED;
    let parity = saving.superblock_row % 2;
    Place {
        window: windows::cut_window(&saving.window),
        superblock_row: cut(if near { saving.superblock_row } else { parity }),
        pass: cut(saving.pass),
    }
}
