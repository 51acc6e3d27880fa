//! The paper's candidate search beside the Rust's.

use cases::found;
use cases::frames;
use cases::random;
use cases::scene::Scene;
use oracle::paper;
use oracle::paper::Lent;
use shared::split_mix::SplitMix64;
use std::path::Path;

/// The sample that stands in the repository.
const SAMPLE: &str = concat!(env!("CARGO_MANIFEST_DIR"), "/../../real/finds");

#[test]
fn real_searches_are_as_traced() {
    assert_eq!(found::check(Path::new(SAMPLE)), Ok(1542));
}

#[test]
fn random_searches_are_the_same() {
    let seen = random::run(3, 30_000).unwrap();
    assert_eq!(seen.differences, Vec::<String>::new());
    assert!([0, 4, 6, 8, 9].iter().all(|&it| seen.answers[it] > 0));
    assert!(seen.counts.iter().chain(&seen.sizes).all(|&it| it > 0));
    let kinds = [seen.compound, seen.twice, seen.copies, seen.temporal];
    assert!(kinds.iter().all(|&it| it > 500), "{kinds:?}");
    assert!(
        seen.paper_alone < seen.searches / 10,
        "{}",
        seen.paper_alone
    );
}

/// The blocks of a stream never meet an absent row, a neighbour too large or the end of a buffer.
#[test]
fn blocks_that_were_laid_out_are_accepted() {
    let mut random = SplitMix64::new(4);
    let mut asked = 0;
    for _ in 0..300 {
        let record = frames::record(&mut random, frames::SMALL);
        let scene = Scene::new(&mut random, record).unwrap();
        let lent = Lent {
            record: &scene.record,
            table: &scene.rows,
            records: &scene.records,
            projection: &scene.projection,
        };
        for _ in 0..50 {
            let ask = scene.ask(&mut random);
            if scene.is_laid_out(&ask) {
                asked += 1;
                assert!(paper::search(&lent, &ask).is_ok(), "{ask:?}");
            }
        }
    }
    assert!(asked > 10_000, "{asked}");
}
