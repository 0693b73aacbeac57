//! The preview of a move (02): it is made on a copy, and both solutions are looked at.
use super::definitions::Definitions;
use super::ordered::{Made, Ordered};
use super::solution::Solution;
use crate::answer::Preview;
use crate::words::MAX_ENTRIES;

impl Ordered {
    /// What the move would leave, or the number with which it is refused.
    pub fn preview(&self, definitions: &Definitions, words: &[u32]) -> Result<Preview, u32> {
        let mut copy = self.clone();
        let made = copy.make_words(definitions, words, 0, MAX_ENTRIES)?;
        let id = concerned(&self.solution, &made, &copy.solution).unwrap_or(0);
        Ok(Preview::accepted(copy.order.len(), copy.solution.next, id, made.members()))
    }
}

/// The transaction that a move concerns, by the solutions before and after it.
fn concerned(before: &Solution, made: &Made, after: &Solution) -> Option<u32> {
    let only_in = |one: &Solution, other: &Solution| {
        let mut ids = one.transactions.keys().copied().filter(|id| !other.transactions.contains_key(id));
        let id = ids.next();
        assert_eq!(ids.next(), None, "one move begins or ends two transactions");
        id
    };
    match made {
        Made::Ended { .. } => only_in(before, after),
        // In the global solution: the one that is begun, if any.
        Made::Fired { fired, .. } if fired.scopes.is_empty() => only_in(after, before),
        // Inside one, or a merge of some.
        Made::Fired { fired, .. } => fired.scopes.iter().copied().min(),
    }
}
