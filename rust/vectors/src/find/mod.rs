//! Candidate search.

mod damage;
mod question;
mod random;
mod real;

use crate::list::List;
use crate::list::SEED;
use crate::split_mix::SplitMix64;
use question::FindQuestion;

/// How many random searches there are with nothing wrong.
const RANDOM: usize = 120;

/// How many damaged ones there are at most with the same answer.
const DAMAGED: usize = 14;

/// The answers that a search has.
const ANSWERS: [u8; 8] = [0, 1, 4, 6, 7, 8, 9, 10];

pub fn put(list: &mut List) -> Result<(), String> {
    let mut random = SplitMix64::new(SEED);
    let drawn = random::questions(&mut random, RANDOM)?;
    let damaged = damaged(&mut random, &drawn);
    list.put_all("searches", &[real::questions()?, drawn, damaged].concat())
}

/// As many of each answer.
fn damaged(random: &mut SplitMix64, whole: &[FindQuestion]) -> Vec<FindQuestion> {
    let mut left = [DAMAGED; ANSWERS.len()];
    let mut damaged = Vec::new();
    while left != [0; ANSWERS.len()] {
        let mut question = whole[random.below(whole.len())].clone();
        damage::damage(random, &mut question);
        let answer = question.searched().err().unwrap_or(0);
        let at = ANSWERS.iter().position(|&it| it == answer);
        let left = &mut left[at.expect("a search has no other answer")];
        if *left > 0 {
            *left -= 1;
            damaged.push(question);
        }
    }
    damaged
}

#[cfg(test)]
mod tests {
    use super::*;
    use std::collections::HashSet;

    fn drawn() -> Vec<FindQuestion> {
        let mut random = SplitMix64::new(SEED);
        random::questions(&mut random, RANDOM).unwrap()
    }

    /// Those with nothing wrong.
    fn whole() -> Vec<FindQuestion> {
        [real::questions().unwrap(), drawn()].concat()
    }

    #[test]
    fn the_list_has_its_size() {
        assert!(real::questions().unwrap().len() >= 300);
    }

    #[test]
    fn each_refusal_of_a_search_is_given() {
        let damaged = damaged(&mut SplitMix64::new(SEED), &drawn());
        let given: HashSet<u8> = damaged
            .iter()
            .map(|question| question.searched().err().unwrap_or(0))
            .collect();
        assert_eq!(given, HashSet::from(ANSWERS));
    }

    #[test]
    fn each_size_and_kind_is_asked() {
        let asks = || whole().into_iter().map(|question| question.ask);
        let sizes: HashSet<u8> = asks().map(|ask| ask.size).collect();
        assert_eq!(sizes.len(), 22);
        let counts = [
            asks().filter(|ask| ask.is_compound()).count(),
            asks().filter(|ask| ask.references[0] == 0).count(),
            asks().filter(|ask| ask.integer == 1).count(),
        ];
        assert!(counts.iter().all(|&count| count >= 20), "{counts:?}");
    }

    #[test]
    fn each_patch_is_read_and_nothing_else() {
        for question in whole() {
            assert!(question.searched().is_ok());
            for at in 0..question.records.len() {
                let mut other = question.clone();
                other.records.remove(at);
                assert_eq!(other.searched(), Err(8));
            }
            for at in 0..question.cells.len() {
                let mut other = question.clone();
                other.cells.remove(at);
                assert_eq!(other.searched(), Err(7));
            }
        }
    }

    #[test]
    fn the_places_are_as_many_as_a_real_search_reads() {
        let whole = real::sample(1).unwrap();
        let records = whole.iter().map(|question| question.records.len());
        let cells = whole.iter().map(|question| question.cells.len());
        assert_eq!(
            [records.max(), cells.max()],
            [Some(question::RECORDS), Some(question::CELLS)]
        );
    }
}
