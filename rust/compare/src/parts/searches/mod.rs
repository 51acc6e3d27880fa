//! The candidate search, in frames in the middle of a decode and in rougher ones. Stack, count and
//! context are compared whole, with bytes lent behind them.

mod question;

use crate::codec;
use crate::found::Left;
use crate::frames;
use crate::names;
use crate::options::Options;
use crate::tally::Tally;
use cases::judge::fixes_the_same;
use cases::scene::Scene;
use jaskkovir::calls::Searched;
use jaskkovir::Frame;
use jaskkovir::Tile;
use oracle::paper;
use oracle::paper::Lent;
use oracle::paper::RowTable;
use oracle::rows::Table;
use oracle::search;
use oracle::search::Answer;
use oracle::search::Ask;
use oracle::search::Prepared;
use question::Put;
use question::Question;
use shared::split_mix::SplitMix64;

const RECORD_LEN: usize = 12;

const CELL_LEN: usize = 5;

/// Bytes lent behind the listed records and cells.
const MORE: usize = 17;

/// How many searches each frame is asked for.
const ASKS: usize = 100;

pub fn compare(options: &Options) -> Result<Tally, String> {
    let mut random = options.random(names::SEARCH);
    let mut tally = Tally::default();
    for i in 0..options.cases(3_000, 60_000) {
        let limits = match i % 300 {
            0 => frames::LARGE,
            _ => frames::SMALL,
        };
        let record = frames::record(&mut random, limits);
        let mut scene = Scene::new(&mut random, record)?;
        if random.below(5) == 0 {
            scene.roughen(&mut random);
        }
        let mut run = Run::new(&mut random, scene);
        for _ in 0..ASKS {
            run.search(&mut random, &mut tally)?;
        }
    }
    Ok(tally)
}

/// A scene in bytes, for the port, and in the Rust's own types.
struct Run {
    scene: Scene,
    frame: [u8; Frame::LEN],
    tile: [u8; Tile::LEN],
    records: Vec<u8>,
    projection: Vec<u8>,
    rust: Prepared,
}

impl Run {
    fn new(random: &mut SplitMix64, scene: Scene) -> Self {
        let more: [u8; MORE] = random.bytes();
        let starts = [scene.rows.col_start, scene.rows.row_start];
        let (record, table) = (&scene.record, &scene.table);
        Self {
            frame: codec::frame_bytes(record),
            tile: codec::tile_bytes(table, starts),
            records: [&scene.records[..], &more].concat(),
            projection: [&scene.projection[..], &more].concat(),
            rust: Prepared::on_record(record, table, &scene.records, &scene.projection),
            scene,
        }
    }

    fn search(&mut self, random: &mut SplitMix64, tally: &mut Tally) -> Result<(), String> {
        let question = Question::any(random, self);
        let before = question.put.map(|put| self.put(put));
        let lent = Left::lent(random);
        let (wanted, after) = self.wanted(&question, lent.clone(), tally)?;
        let [records, projection] = self.lent(&question);
        let parts = Searched {
            frame: &question.frame,
            tile: &question.tile,
            records,
            projection,
        };
        let (answer, left) = lent.search(&parts, &question.ask);
        if answer != wanted || left != after {
            tally.differ(self.size(), || {
                format!("{question:?}: ours {answer} {left:?}, wanted {wanted} {after:?}")
            });
        }
        if let Some(before) = before {
            self.put(before);
        }
        Ok(())
    }

    fn lent(&self, question: &Question) -> [&[u8]; 2] {
        let [records, projection] = question.lens;
        [&self.records[..records], &self.projection[..projection]]
    }

    /// The paper's answer, and what should be left: the Rust's, where it can be asked.
    fn wanted(
        &mut self,
        question: &Question,
        left: Left,
        tally: &mut Tally,
    ) -> Result<(u8, Left), String> {
        let table = codec::table_at(&question.tile);
        let ask = codec::ask_at(&question.ask);
        let [records, projection] = self.lent(question);
        let lent = Lent {
            record: &codec::frame_at(&question.frame),
            table: &table,
            records,
            projection,
        };
        let searched = paper::search(&lent, &ask);
        tally.count(searched.as_ref().err().copied().unwrap_or(0));
        let searched = match searched {
            Ok(searched) => searched,
            Err(refusal) => return Ok((refusal, left)),
        };
        let mut answer = searched.answer;
        if search::can_ask(&ask) {
            answer = self.rust_answer(question, &table, &ask)?;
        } else {
            tally.count_paper_alone();
        }
        if !fixes_the_same(ask.is_compound(), &searched.answer, &answer) {
            let told = || format!("the paper isn't the Rust: {question:?}");
            tally.differ(self.size(), told);
        }
        Ok((0, left.with(ask.is_compound(), &answer)))
    }

    /// The Rust's answer to an accepted search.
    fn rust_answer(
        &mut self,
        question: &Question,
        table: &RowTable,
        ask: &Ask,
    ) -> Result<Answer, String> {
        let before = question.put.map(|put| self.put_in_rust(put));
        self.rust.set_table(&Table::from(table));
        let outcome = search::search(&self.rust, ask);
        self.rust.set_table(&self.scene.table);
        if let Some(Some(before)) = before {
            self.put_in_rust(before);
        }
        let answer = outcome.gave();
        answer.ok_or_else(|| format!("the Rust panicked: {question:?}"))
    }

    /// Replaces a record or a cell of the lent bytes, and gives what was there.
    fn put(&mut self, put: Put) -> Put {
        match put {
            Put::Record(place, record) => {
                let (places, _) = self.records.as_chunks_mut::<RECORD_LEN>();
                Put::Record(place, std::mem::replace(&mut places[place], record))
            }
            Put::Cell(place, cell) => {
                let (places, _) = self.projection.as_chunks_mut::<CELL_LEN>();
                Put::Cell(place, std::mem::replace(&mut places[place], cell))
            }
        }
    }

    /// The same for the Rust, which can't hold a size code that is none. An accepted search hasn't
    /// read such a record.
    fn put_in_rust(&mut self, put: Put) -> Option<Put> {
        match put {
            Put::Record(_, record) if record[10] > 21 => None,
            Put::Record(place, record) => {
                self.rust.put_record(place, record);
                let (places, _) = self.scene.records.as_chunks::<RECORD_LEN>();
                Some(Put::Record(place, places[place]))
            }
            Put::Cell(place, cell) => {
                self.rust.put_cell(place, cell);
                let (places, _) = self.scene.projection.as_chunks::<CELL_LEN>();
                Some(Put::Cell(place, places[place]))
            }
        }
    }

    fn size(&self) -> u64 {
        u64::from(self.scene.record.width) + u64::from(self.scene.record.height)
    }
}
