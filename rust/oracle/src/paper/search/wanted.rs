//! What a search looks for, and what a neighbour has of it.

use super::reads::Neighbour;
use super::reads::INVALID;
use super::FrameRecord;
use super::Mv;
use crate::asked::Ask;

const ZERO: Mv = [0; 2];

/// What a search looks for.
pub(super) struct Wanted {
    pub compound: bool,
    pub references: [i64; 2],
    pub globals: [Mv; 2],
    /// Whether a reference's global vector stands for the own one of a block in global mode.
    above: [bool; 2],
    /// By reference, the first of which is 1.
    sign_bias: [bool; 7],
    pub distances: [i64; 7],
}

impl Wanted {
    pub fn new(record: &FrameRecord, ask: &Ask) -> Self {
        let has_global = ask.references.map(|reference| reference > 0);
        let global = |at: usize| match has_global[at] {
            true => [ask.globals[at].mv.y, ask.globals[at].mv.x].map(i64::from),
            false => ZERO,
        };
        Self {
            compound: ask.is_compound(),
            references: ask.references.map(i64::from),
            globals: [0, 1].map(global),
            above: [0, 1].map(|at| has_global[at] && ask.globals[at].above == 1),
            sign_bias: record.hints.map(|hint| hint.sign_bias == 1),
            distances: record.hints.map(|hint| hint.pocdiff.into()),
        }
    }

    /// The candidate that a neighbour lends, if it matches. A single search takes the first list
    /// with its reference.
    pub fn lent_by(&self, neighbour: &Neighbour) -> Option<[Mv; 2]> {
        if neighbour.mv[0] == INVALID {
            return None;
        }
        let mv = |at: usize, list: usize| match neighbour.global && self.above[at] {
            true => self.globals[at],
            false => neighbour.mv[list],
        };
        if self.compound {
            let same = neighbour.references == self.references;
            return same.then(|| [mv(0, 0), mv(1, 1)]);
        }
        let mut lists = neighbour.references.iter();
        let list = lists.position(|&reference| reference == self.references[0])?;
        Some([mv(0, list), ZERO])
    }

    /// A neighbour's vector as seen towards a wanted reference: turned round where one lies ahead of
    /// the frame and the other behind.
    pub fn turned(&self, at: usize, reference: i64, mv: Mv) -> Mv {
        let ahead = |reference: i64| self.sign_bias[reference as usize - 1];
        match ahead(reference) == ahead(self.references[at]) {
            true => mv,
            false => mv.map(|component| -component),
        }
    }
}
