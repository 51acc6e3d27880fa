//! A capture file played by the library and by the Rust, and what each left.

use crate::codec;
use crate::tally::Tally;
use jaskkovir::calls;
use jaskkovir::calls::STEPS_LEN;
use jaskkovir::refusal::ACCEPTED;
use jaskkovir::refusal::BUFFER;
use oracle::replay;
use shared::split_mix::SplitMix64;

const CELL_LEN: usize = 5;

/// Bytes lent behind the cells of the largest frame, which has 32 x 32 cells and four tile rows, and
/// behind the steps.
const MORE: usize = 17;
const PROJECTED: usize = CELL_LEN * 16 * 32 * 4 + MORE;
const SAVED: usize = CELL_LEN * 32 * 32 + MORE;

/// How much is lent.
#[derive(Clone, Copy, Debug)]
pub struct Lens {
    pub projection: usize,
    pub saved: usize,
    pub steps: usize,
}

impl Lens {
    /// All that any file needs, and more.
    pub const LISTED: Self = Self {
        projection: PROJECTED,
        saved: SAVED,
        steps: STEPS_LEN + MORE,
    };
}

/// What a file is played over.
#[derive(Clone, PartialEq, Eq)]
pub struct Left {
    pub projection: Vec<u8>,
    pub saved: Vec<u8>,
    steps: Vec<u8>,
}

impl Left {
    /// The steps of the first jobs.
    pub fn steps(&self, jobs: usize) -> Vec<u32> {
        (0..jobs)
            .map(|job| codec::four_at(&self.steps, 4 * job))
            .collect()
    }
}

/// The buffers as every file finds them.
pub struct Player(Left);

impl Player {
    pub fn new(random: &mut SplitMix64) -> Self {
        let some: [u8; 241] = random.bytes();
        let lent = |len: usize| some.into_iter().cycle().take(len).collect();
        Self(Left {
            projection: lent(PROJECTED),
            saved: lent(SAVED),
            steps: lent(STEPS_LEN + MORE),
        })
    }

    fn lent(&self, lens: Lens) -> Left {
        let Left {
            projection,
            saved,
            steps,
        } = &self.0;
        Left {
            projection: projection[..lens.projection].to_vec(),
            saved: saved[..lens.saved].to_vec(),
            steps: steps[..lens.steps].to_vec(),
        }
    }

    /// Plays a file by the port, compares with what should be left, and gives what is.
    pub fn play(
        &self,
        file: &[u8],
        lens: Lens,
        tally: &mut Tally,
        what: impl FnOnce() -> String,
    ) -> Left {
        let mut wanted = self.lent(lens);
        let wanted_answer = wanted_answer(file, &mut wanted);
        tally.count(wanted_answer);
        let mut ours = self.lent(lens);
        let Left {
            projection,
            saved,
            steps,
        } = &mut ours;
        let answer = calls::play(file, projection, saved, steps);
        if answer != wanted_answer || ours != wanted {
            tally.differ(file.len() as u64, || {
                let same = [
                    ours.projection == wanted.projection,
                    ours.saved == wanted.saved,
                    ours.steps == wanted.steps,
                ];
                format!(
                    "{}: {lens:?} lent, ours {answer}, wanted {wanted_answer}, projection, saved \
                     field and steps as they should be: {same:?}",
                    what()
                )
            });
        }
        ours
    }
}

/// Brings what is lent to what should be left.
fn wanted_answer(file: &[u8], lent: &mut Left) -> u8 {
    let Left {
        projection,
        saved,
        steps,
    } = lent;
    let Some(first) = steps.first_chunk_mut::<STEPS_LEN>() else {
        return BUFFER;
    };
    match replay::play(file, projection, saved) {
        Ok(counts) => {
            first.fill(0);
            for (bytes, count) in first.as_chunks_mut().0.iter_mut().zip(counts) {
                *bytes = count.to_le_bytes();
            }
            ACCEPTED
        }
        Err(refusal) => refusal,
    }
}
