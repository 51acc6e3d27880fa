//! Searches on random frames in the middle of a decode, with what they read there.

use super::question::listed;
use super::question::FindQuestion;
use super::question::Patches;
use super::question::MOST_CELLS;
use super::question::MOST_RECORDS;
use crate::split_mix::SplitMix64;
use cases::frames;
use cases::scene::Scene;
use oracle::paper;
use oracle::paper::FrameRecord;
use oracle::paper::Lent;

/// The most bytes lent behind the listed ones.
const MORE: u32 = 17;

/// Accepted searches. Those that read too much for the list are left out.
pub fn questions(random: &mut SplitMix64, count: usize) -> Result<Vec<FindQuestion>, String> {
    let mut questions = Vec::new();
    while questions.len() < count {
        let record = small(random);
        let mut scene = Scene::new(random, record)?;
        if random.below(5) == 0 {
            scene.roughen(random);
        }
        questions.extend(question(random, &scene).filter(FindQuestion::fits));
    }
    Ok(questions)
}

/// A frame whose buffers fit the list.
fn small(random: &mut SplitMix64) -> FrameRecord {
    loop {
        let record = frames::record(random, frames::SMALL);
        let [records, cells] = listed(&record);
        if records <= MOST_RECORDS - MORE && cells <= MOST_CELLS - MORE {
            return record;
        }
    }
}

/// Nothing where the search is refused.
fn question(random: &mut SplitMix64, scene: &Scene) -> Option<FindQuestion> {
    let ask = scene.ask(random);
    let lent = Lent {
        record: &scene.record,
        table: &scene.rows,
        records: &scene.records,
        projection: &scene.projection,
    };
    let searched = paper::search(&lent, &ask).ok()?;
    let more = random.below(MORE as usize + 1) as u32;
    Some(FindQuestion {
        record: scene.record,
        table: scene.rows,
        ask,
        lens: listed(&scene.record).map(|len| len + more),
        records: patches(&scene.records, &searched.records),
        cells: patches(&scene.projection, &searched.cells),
        traced: None,
    })
}

/// What stands at the places that were read.
fn patches<const N: usize>(bytes: &[u8], places: &[u64]) -> Patches<N> {
    let (units, _) = bytes.as_chunks();
    let patch = |&place: &u64| (place as u32, units[place as usize]);
    places.iter().map(patch).collect()
}
