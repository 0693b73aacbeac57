//! The tally of a run (02), read off its history when all moves have been made: no figure is kept on the way. Members
//! are told apart by their ids, which are never used twice, so that each is counted once.
use std::collections::BTreeSet;

use super::ordered::Made;
use crate::answer::Tally;
use crate::words::act;

/// What the moves of a history did with members (01: lots), by id.
#[derive(Clone, Debug, PartialEq, Eq)]
pub struct Members {
    pub begun: BTreeSet<u32>,
    pub committed: BTreeSet<u32>,
    pub aborted: BTreeSet<u32>,
}

impl Members {
    pub fn of(history: &[Made]) -> Members {
        let ended_by = |by: u32| {
            let ended = history.iter().filter_map(|made| match made {
                Made::Ended { kind, ended, .. } if *kind == by => Some(ended),
                _ => None,
            });
            ended.flat_map(|transaction| transaction.members.values().copied()).collect()
        };
        Members {
            begun: history.iter().filter_map(Made::begun).collect(),
            committed: ended_by(act::COMMIT),
            aborted: ended_by(act::ABORT),
        }
    }
}

/// Moves made, and members begun, committed and aborted.
pub fn tally(history: &[Made]) -> Tally {
    let Members { begun, committed, aborted } = Members::of(history);
    [history.len(), begun.len(), committed.len(), aborted.len()].map(|count| count as u32)
}
