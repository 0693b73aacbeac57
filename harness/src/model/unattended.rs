//! Unattended running (02): of the list of enabled moves the first is made, on what the one before left.
use super::definitions::Definitions;
use super::list::Tried;
use super::ordered::Ordered;
use crate::words::{Move, MAX_ENTRIES};

/// What was done alone.
pub struct Alone {
    pub log: Vec<Move>,
    /// Nothing is enabled after these moves.
    pub still: bool,
}

/// Makes first moves until there is none or the budget is used up. `None` if a state on the way has more than `most`
/// reactions to try, so that a test can keep to those that are quickly tried.
pub fn alone(definitions: &Definitions, mut ordered: Ordered, budget: usize, most: u64) -> Option<Alone> {
    let mut log = Vec::new();
    loop {
        let tried = Tried::new(definitions, &ordered);
        if tried.candidates() > most {
            return None;
        }
        match tried.first() {
            None => return Some(Alone { log, still: true }),
            Some(_) if log.len() == budget => return Some(Alone { log, still: false }),
            Some(first) => {
                let made = ordered.make_words(definitions, &first.words(), log.len(), MAX_ENTRIES);
                made.expect("a move of the list");
                log.push(first);
            }
        }
    }
}
