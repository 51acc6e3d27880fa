//! Random searches, asked of the paper and of the Rust.

use crate::frames;
use crate::judge::judge;
use crate::judge::Verdict;
use crate::scene::Scene;
use oracle::paper::Lent;
use oracle::search::Ask;
use oracle::search::Prepared;
use shared::split_mix::SplitMix64;
use std::fmt;
use std::fmt::Display;
use std::fmt::Formatter;

/// How many searches each frame is asked for.
const ASKS: usize = 100;

/// What was seen.
#[derive(Default)]
pub struct Seen {
    pub searches: usize,
    /// By answer: acceptance, then the refusals.
    pub answers: [usize; 14],
    pub paper_alone: usize,
    pub compound: usize,
    /// Compound searches for one reference twice.
    pub twice: usize,
    /// Searches for intra block copies.
    pub copies: usize,
    pub temporal: usize,
    /// Accepted ones by count.
    pub counts: [usize; 9],
    pub sizes: [usize; 22],
    /// The most records and cells that one search read.
    pub most_reads: usize,
    pub differences: Vec<String>,
}

/// At least this many searches.
pub fn run(seed: u64, searches: usize) -> Result<Seen, String> {
    let mut random = SplitMix64::new(seed);
    let mut seen = Seen::default();
    while seen.searches < searches {
        let record = frames::record(&mut random, frames::SMALL);
        let mut scene = Scene::new(&mut random, record)?;
        if random.below(5) == 0 {
            scene.roughen(&mut random);
        }
        seen.ask(&mut random, &scene);
    }
    Ok(seen)
}

impl Seen {
    fn ask(&mut self, random: &mut SplitMix64, scene: &Scene) {
        let lent = Lent {
            record: &scene.record,
            table: &scene.rows,
            records: &scene.records,
            projection: &scene.projection,
        };
        let rust = Prepared::on_record(lent.record, &scene.table, lent.records, lent.projection);
        for _ in 0..ASKS {
            let ask = scene.ask(random);
            let judged = judge(&lent, &rust, &ask);
            self.count(&ask, scene);
            match &judged.searched {
                Ok(searched) => {
                    self.answers[0] += 1;
                    self.counts[usize::from(searched.answer.count)] += 1;
                    let reads = searched.records.len() + searched.cells.len();
                    self.most_reads = self.most_reads.max(reads);
                }
                Err(answer) => self.answers[usize::from(*answer)] += 1,
            }
            match judged.verdict {
                Verdict::Same => {}
                Verdict::PaperAlone => self.paper_alone += 1,
                Verdict::Different => self.differences.push(format!(
                    "{ask:?} on {:?}, {:?}: {:?}",
                    scene.record, scene.rows, judged.searched
                )),
            }
        }
    }

    fn count(&mut self, ask: &Ask, scene: &Scene) {
        self.searches += 1;
        self.compound += usize::from(ask.is_compound());
        self.twice += usize::from(ask.references[0] == ask.references[1]);
        self.copies += usize::from(ask.references[0] == 0);
        self.temporal += usize::from(scene.record.use_ref_frame_mvs);
        self.sizes[usize::from(ask.size)] += 1;
    }
}

impl Display for Seen {
    fn fmt(&self, f: &mut Formatter) -> fmt::Result {
        writeln!(
            f,
            "searches {}: compound {}, one reference twice {}, intra block copy {}, temporal {}",
            self.searches, self.compound, self.twice, self.copies, self.temporal
        )?;
        writeln!(f, "answers {:?}", self.answers)?;
        writeln!(f, "accepted by count {:?}", self.counts)?;
        writeln!(f, "by size {:?}", self.sizes)?;
        write!(
            f,
            "at most {} reads, by the paper alone {}, differences {}",
            self.most_reads,
            self.paper_alone,
            self.differences.len()
        )
    }
}
