//! What is done where fewer than two candidates were found.

use super::reads::Neighbour;
use super::Mv;
use super::Search;

/// What such a candidate weighs.
const WEIGHT: i64 = 2;

/// How many candidates are looked for, and vectors of each kind kept.
const ENOUGH: usize = 2;

impl Search<'_> {
    pub fn extra(&mut self) -> Result<(), u8> {
        if self.stack.len() >= ENOUGH || self.wanted.references[0] == 0 {
            Ok(())
        } else if self.wanted.compound {
            self.extra_pairs()
        } else {
            self.extra_vectors()
        }
    }

    /// Any neighbour's vectors, turned, where they aren't there yet. Only before a neighbour it is
    /// asked whether there are enough.
    fn extra_vectors(&mut self) -> Result<(), u8> {
        for above in [true, false] {
            let mut at = 0;
            while self.goes_on(above, at) && self.stack.len() < ENOUGH {
                let neighbour = self.edge(above, at)?;
                for (reference, mv) in lists(&neighbour) {
                    let pair = [self.wanted.turned(0, reference, mv), [0; 2]];
                    if self.stack.pairs().all(|known| known != pair) {
                        self.stack.push(pair, WEIGHT);
                    }
                }
                at += length(&neighbour, above);
            }
        }
        Ok(())
    }

    /// Two pairs out of all neighbours' vectors. Where one was found before, one of them: the second
    /// if the first is the same.
    fn extra_pairs(&mut self) -> Result<(), u8> {
        let [first, second] = self.made_pairs()?;
        let known = self.stack.pairs().next();
        match known {
            None => {
                self.stack.push(first, WEIGHT);
                self.stack.push(second, WEIGHT);
            }
            Some(known) if known == first => self.stack.push(second, WEIGHT),
            Some(_) => self.stack.push(first, WEIGHT),
        }
        Ok(())
    }

    /// For each wanted reference its own vectors, two at most, then those of others, two at most and
    /// turned, then its global one.
    fn made_pairs(&mut self) -> Result<[[Mv; 2]; 2], u8> {
        let mut same: [Vec<Mv>; 2] = Default::default();
        let mut other: [Vec<Mv>; 2] = Default::default();
        for above in [true, false] {
            let mut at = 0;
            while self.goes_on(above, at) {
                let neighbour = self.edge(above, at)?;
                for (reference, mv) in lists(&neighbour) {
                    for wanted in 0..2 {
                        match self.is_same(wanted, reference) {
                            true => same[wanted].push(mv),
                            false => other[wanted].push(self.wanted.turned(wanted, reference, mv)),
                        }
                    }
                }
                at += length(&neighbour, above);
            }
        }
        let made = [0, 1].map(|wanted| {
            let same = same[wanted].iter().take(ENOUGH);
            let other = other[wanted].iter().take(ENOUGH);
            let mut all = same.chain(other).copied();
            [(); 2].map(|_| all.next().unwrap_or(self.wanted.globals[wanted]))
        });
        Ok([0, 1].map(|n| [made[0][n], made[1][n]]))
    }

    /// Where both wanted references are one, it is the first.
    fn is_same(&self, wanted: usize, reference: i64) -> bool {
        let references = self.wanted.references;
        references.iter().position(|&it| it == reference) == Some(wanted)
    }

    /// Whether the edge has a neighbour from there on: it is no longer than the block's shorter
    /// side.
    fn goes_on(&self, above: bool, at: i64) -> bool {
        let place = &self.place;
        let there = match above {
            true => place.has_above(),
            false => place.has_left(),
        };
        there && at < place.across.min(place.down)
    }

    fn edge(&mut self, above: bool, at: i64) -> Result<Neighbour, u8> {
        let place = &self.place;
        let (entry, column) = match above {
            true => (place.entry(-1), place.column + at),
            false => (place.entry(at), place.column - 1),
        };
        self.reads.record(entry, column)
    }
}

/// References with their vectors, up to the first that is none.
fn lists(neighbour: &Neighbour) -> impl Iterator<Item = (i64, Mv)> {
    let lists = neighbour.references.into_iter().zip(neighbour.mv);
    lists.take_while(|&(reference, _)| reference > 0)
}

fn length(neighbour: &Neighbour, above: bool) -> i64 {
    match above {
        true => neighbour.width,
        false => neighbour.height,
    }
}
