//! Load.

mod accepted;
pub mod edges;
#[cfg(test)]
mod plain;
pub mod question;
mod refused;

use crate::list::List;
use crate::list::SEED;
use crate::load::question::LoadQuestion;
use crate::split_mix::SplitMix64;

pub fn put(list: &mut List) -> Result<(), String> {
    list.put_all("loads", &questions())
}

fn questions() -> Vec<LoadQuestion> {
    let mut random = SplitMix64::new(SEED);
    [
        edges::questions(),
        accepted::questions(&mut random),
        refused::questions(),
    ]
    .concat()
}

#[cfg(test)]
mod tests {
    use super::*;
    use crate::load::plain::Landing;
    use shared::desk::lent;
    use std::collections::HashSet;

    /// The accepted questions, each once.
    fn accepted() -> Vec<LoadQuestion> {
        let mut seen = HashSet::new();
        questions()
            .into_iter()
            .filter(|it| it.refusal() == Ok(0) && seen.insert(it.question().unwrap().key()))
            .collect()
    }

    #[test]
    fn the_list_has_its_size() {
        assert!(accepted().len() >= 300);
        let mut random = SplitMix64::new(SEED);
        for question in [edges::questions(), accepted::questions(&mut random)].concat() {
            assert_eq!(question.refusal(), Ok(0));
        }
    }

    #[test]
    fn each_refusal_of_a_load_is_given() {
        let given: HashSet<u8> = questions()
            .iter()
            .map(|question| question.refusal().unwrap())
            .collect();
        assert_eq!(given, HashSet::from([0, 1, 3, 4, 5, 7]));
    }

    #[test]
    fn the_rust_loads_what_document_01_says() {
        for question in accepted() {
            let plain = plain::loaded(&question, lent(question.projection_len as usize));
            assert_eq!(question.loaded(), Ok(plain));
        }
    }

    /// How far a landing is inside each of the eight edges: the own group's and the window's, by
    /// rows and by columns.
    fn slacks(question: &LoadQuestion, landing: &Landing) -> [i32; 8] {
        let [[y, x], [to_y, to_x]] = [landing.source, landing.target];
        let window = question.window.numbers().map(|number| number as i32);
        let [_, col_start, col_end, row_start, row_end] = window;
        let last_row = row_end.min(question.frame.description.height.div_ceil(8) as i32) - 1;
        [
            to_y - (y & !7),
            (y & !7) + 7 - to_y,
            to_y - row_start,
            last_row - to_y,
            to_x - ((x & !7) - 8),
            (x & !7) + 15 - to_x,
            to_x - col_start,
            col_end - 1 - to_x,
        ]
    }

    #[test]
    fn cells_land_just_inside_and_just_outside_each_edge() {
        let mut met = HashSet::new();
        for question in accepted() {
            for landing in plain::landings(&question) {
                let slacks = slacks(&question, &landing);
                assert_eq!(landing.inside, slacks.iter().all(|&slack| slack >= 0));
                let alone = slacks.iter().filter(|&&slack| slack < 0).count() < 2;
                for (edge, &slack) in slacks.iter().enumerate() {
                    if slack == -1 && alone || slack == 0 && landing.inside {
                        met.insert((edge, slack));
                    }
                }
            }
        }
        assert_eq!(met.len(), 16);
    }

    #[test]
    fn each_number_of_references_is_used_and_skipped() {
        let (mut counts, mut references) = (HashSet::new(), HashSet::new());
        for question in accepted() {
            let record = question.frame.record().unwrap();
            let selected = &record.slots[..record.n_mfmvs.into()];
            let used = selected.iter().filter(|slot| slot.ref2cur.is_some());
            counts.insert((used.clone().count(), selected.len()));
            references.extend(used.map(|slot| slot.reference));
        }
        for count in 1..=3 {
            assert!(counts.contains(&(count, count)) && counts.contains(&(count - 1, count)));
        }
        assert_eq!(references, HashSet::from([0, 1, 4, 5, 6]));
    }

    #[test]
    fn later_cells_land_over_earlier_ones() {
        let over = |question: &&LoadQuestion| {
            let mut seen = HashSet::new();
            let landings = plain::landings(question);
            let mut inside = landings.iter().filter(|landing| landing.inside);
            inside.any(|landing| !seen.insert(landing.target))
        };
        assert!(accepted().iter().filter(over).count() >= 20);
    }
}
