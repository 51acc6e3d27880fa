//! The candidate stack as a list.

use super::Mv;
use crate::asked::Answer;
use crate::asked::Candidate;
use crate::asked::SLOTS;
use crate::leaves::Vector;

/// Candidates that were found first outweigh all later ones.
const LIFT: i64 = 640;

/// Candidates with their weights. In a single search each second vector is zero.
#[derive(Default)]
pub(super) struct Stack(Vec<([Mv; 2], i64)>);

impl Stack {
    pub fn len(&self) -> usize {
        self.0.len()
    }

    pub fn pairs(&self) -> impl Iterator<Item = [Mv; 2]> + '_ {
        self.0.iter().map(|(pair, _)| *pair)
    }

    /// An equal one gains the weight; a new one is dropped where there is no room.
    pub fn add(&mut self, pair: [Mv; 2], weight: i64) {
        if let Some((_, sum)) = self.0.iter_mut().find(|(known, _)| *known == pair) {
            *sum += weight;
        } else if self.0.len() < SLOTS {
            self.0.push((pair, weight));
        }
    }

    /// As it is, equal to another or not.
    pub fn push(&mut self, pair: [Mv; 2], weight: i64) {
        self.0.push((pair, weight));
    }

    pub fn lift(&mut self) {
        for (_, weight) in &mut self.0 {
            *weight += LIFT;
        }
    }

    /// Both parts by falling weight; equal weights keep their order.
    pub fn sort(&mut self, nearest: usize) {
        let (near, far) = self.0.split_at_mut(nearest);
        for part in [near, far] {
            part.sort_by_key(|(_, weight)| -weight);
        }
    }

    /// To bounds of rows and columns, in units of 4 samples.
    pub fn clamp(&mut self, bounds: [[i64; 2]; 2]) {
        for mv in self.0.iter_mut().flat_map(|(pair, _)| pair) {
            for (component, [least, most]) in mv.iter_mut().zip(bounds) {
                *component = (*component).clamp(32 * least, 32 * most);
            }
        }
    }

    /// `fill` stands in the places up to the second that nothing was found for.
    pub fn answer(&self, context: u8, fill: Option<Mv>) -> Answer {
        let filled = fill.into_iter().cycle().map(|mv| ([mv, [0; 2]], 0));
        let slots = self.0.iter().copied();
        let mut slots = slots.chain(filled.take(2usize.saturating_sub(self.len())));
        Answer {
            count: self.len() as u8,
            context,
            stack: std::array::from_fn(|_| candidate(slots.next().unwrap_or_default())),
        }
    }
}

fn candidate((pair, weight): ([Mv; 2], i64)) -> Candidate {
    Candidate {
        mv: pair.map(|[y, x]| Vector {
            y: y as i16,
            x: x as i16,
        }),
        weight: weight as u32,
    }
}
