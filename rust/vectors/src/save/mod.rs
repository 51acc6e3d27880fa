//! Save.

mod accepted;
pub mod block;
#[cfg(test)]
mod plain;
mod question;
mod random;
mod refused;

use crate::list::List;
use crate::list::SEED;
use crate::save::question::SaveQuestion;
use crate::split_mix::SplitMix64;

pub fn put(list: &mut List) -> Result<(), String> {
    list.put_all("saves", &questions())
}

fn questions() -> Vec<SaveQuestion> {
    let mut random = SplitMix64::new(SEED);
    [accepted::questions(&mut random), refused::questions()].concat()
}

#[cfg(test)]
mod tests {
    use super::*;
    use shared::desk::lent;
    use std::collections::HashSet;

    /// The accepted questions, each once.
    fn accepted() -> Vec<SaveQuestion> {
        let mut seen = HashSet::new();
        questions()
            .into_iter()
            .filter(|it| it.refusal() == Ok(0) && seen.insert(it.question().unwrap().key()))
            .collect()
    }

    #[test]
    fn the_list_has_its_size() {
        assert!(accepted().len() >= 300);
        let mut random = SplitMix64::new(SEED);
        for question in accepted::questions(&mut random) {
            assert_eq!(question.refusal(), Ok(0));
        }
    }

    #[test]
    fn each_refusal_of_a_save_is_given() {
        let given: HashSet<u8> = questions()
            .iter()
            .map(|question| question.refusal().unwrap())
            .collect();
        assert_eq!(given, HashSet::from([0, 1, 3, 4, 6, 8, 9, 12]));
    }

    #[test]
    fn the_rust_saves_what_document_01_says() {
        for question in accepted() {
            let plain = plain::saved(&question, lent(question.field_len as usize));
            assert_eq!(question.saved(), Ok(plain));
        }
    }

    /// Whether the rows that are walked cross a multiple of 16.
    fn wraps(question: &SaveQuestion) -> bool {
        let (rows, _, _) = question.walked();
        !rows.is_empty() && rows.start / 16 != (rows.end - 1) / 16
    }

    #[test]
    fn superblocks_passes_and_threads_are_met_together() {
        let mut kinds = HashSet::new();
        for question in accepted() {
            let (description, place) = (question.frame.description, question.place);
            let threads = [description.tile_threads, description.frame_threads];
            kinds.insert((
                description.sb128,
                place.superblock_row % 2,
                place.pass,
                threads.map(|count| count > 1),
            ));
        }
        assert_eq!(kinds.len(), 32);
        assert!(accepted().iter().filter(|it| wraps(it)).count() >= 10);
    }

    #[test]
    fn each_size_is_read_up_to_its_limit() {
        let mut at_limit = HashSet::new();
        for question in accepted() {
            let (_, columns, limit) = question.walked();
            let wide = |size: u8| (limit - columns.start) % block::width(size) == 0;
            if question.patches.is_empty() && !columns.is_empty() && wide(question.filler[10]) {
                at_limit.insert(question.filler[10]);
            }
        }
        assert_eq!(at_limit, HashSet::from_iter(block::SIZES));
    }
}
