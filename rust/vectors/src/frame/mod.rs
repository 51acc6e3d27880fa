//! Frame setup, the listed sizes, and the check of a finished frame record.

mod accepted;
mod damaged;
mod refused;

use crate::damage::Damage;
use crate::list;
use crate::list::Answer;
use crate::list::Function;
use crate::list::List;
use crate::list::Question;
use crate::list::SEED;
use crate::question::FrameQuestion;
use crate::real;
use crate::real::RealFrame;
use crate::split_mix::SplitMix64;
use oracle::paper;

struct Case {
    question: FrameQuestion,
    damage: Damage,
}

impl From<FrameQuestion> for Case {
    fn from(question: FrameQuestion) -> Self {
        let damage = Damage::NONE;
        Self { question, damage }
    }
}

pub fn put(list: &mut List) -> Result<(), String> {
    let real = real::frames()?;
    compare(&real)?;
    list.put_all("frames", &cases(&real)?)
}

fn cases(real: &[RealFrame]) -> Result<Vec<Case>, String> {
    let mut random = SplitMix64::new(SEED);
    let mut cases: Vec<Case> = Vec::new();
    cases.extend(accepted::questions(&mut random).into_iter().map(Case::from));
    cases.extend(refused::questions().into_iter().map(Case::from));
    cases.extend(real.iter().map(|frame| Case::from(frame.question())));
    cases.extend(damaged::cases()?);
    Ok(cases)
}

/// Fails where a real frame is refused, or the Rust makes something else of it than the traced
/// decoder did.
fn compare(real: &[RealFrame]) -> Result<(), String> {
    for (at, frame) in real.iter().enumerate() {
        let question = frame.question();
        if question.answer() != 0 {
            return Err(format!("real frame {at} is refused"));
        }
        if !frame.equals(&question.finished()?) {
            return Err(format!("real frame {at}: the traced decoder had otherwise"));
        }
    }
    Ok(())
}

impl list::Case for Case {
    fn put(&self, list: &mut List) -> Result<(), String> {
        self.question.put(list)?;
        if self.damage.is_none() {
            return Ok(());
        }
        let record = self.damage.on(self.question.record()?);
        let question = Question::on(Function::Check, &record, [0; 0]);
        list.put(question, Answer::of(paper::record_answer(&record)));
        Ok(())
    }
}

#[cfg(test)]
mod tests {
    use super::*;
    use std::collections::HashSet;

    /// The accepted questions without damage, each once.
    fn accepted() -> Vec<FrameQuestion> {
        let cases = cases(&real::frames().unwrap()).unwrap();
        let mut seen = HashSet::new();
        cases
            .iter()
            .filter(|case| case.damage.is_none() && case.question.answer() == 0)
            .filter(|case| seen.insert(case.question.setup().key()))
            .map(|case| case.question)
            .collect()
    }

    #[test]
    fn the_list_has_its_size() {
        assert!(accepted().len() >= 1000);
    }

    #[test]
    fn all_numbers_of_bits_are_asked_with_and_without_temporal_search() {
        let asked: HashSet<_> = accepted()
            .iter()
            .map(|question| {
                (
                    question.description.hint_bits,
                    question.description.temporal,
                )
            })
            .collect();
        assert_eq!(asked.len(), 18);
    }

    #[test]
    fn each_selectable_reference_is_skipped_somewhere() {
        let mut skipped = HashSet::new();
        for question in accepted() {
            let slots = question.record().unwrap().slots;
            let without = slots.iter().filter(|slot| slot.ref2cur.is_none());
            skipped.extend(without.map(|slot| slot.reference));
        }
        assert_eq!(skipped, HashSet::from([0, 1, 4, 5, 6]));
    }
}
