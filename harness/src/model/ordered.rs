//! A solution with its molecules in the order of 01's entries: states in words (faults 3, 4) and
//! single moves (refusals 5, 7 to 12 and 18).
use std::collections::{BTreeMap, BTreeSet};

use super::definitions::Definitions;
use super::solution::{Fired, Message, Origin, Solution, Transaction};
use crate::words::{act, kind, Entry, Move, State, MAX_ENTRIES, MAX_NEXT};

#[derive(Clone, Debug)]
pub struct Ordered {
    pub solution: Solution,
    pub order: Vec<Origin>,
}

/// What a move did.
#[derive(Clone, Debug)]
pub enum Made {
    Fired { rule: usize, names: Vec<Origin>, fired: Fired },
    Ended { kind: u32, id: u32, ended: Transaction },
}

impl Made {
    /// The members (01: lots) that ended: those of the transaction that was committed or aborted. A reaction
    /// ends none, a merge keeps those of all that it puts together.
    pub fn members(&self) -> u32 {
        match self {
            Made::Fired { .. } => 0,
            Made::Ended { ended, .. } => ended.members.len() as u32,
        }
    }

    /// The transaction that began, if one did: the move was made in none and left one.
    pub fn begun(&self) -> Option<u32> {
        match self {
            Made::Fired { fired, .. } => fired.left_in.filter(|_| fired.scopes.is_empty()),
            Made::Ended { .. } => None,
        }
    }
}

impl Ordered {
    /// Reads a state under its table, or finds the number of its first fault.
    pub fn read(definitions: &Definitions, words: &[u32]) -> Result<Ordered, u32> {
        let state = State::from_words(words).ok_or(3u32)?;
        if state.entries.len() > MAX_ENTRIES || !(1..=MAX_NEXT).contains(&state.next) {
            return Err(3);
        }
        Ordered::from_entries(definitions, &state).ok_or(4)
    }

    /// Builds the solution whose molecules the entries are, if they are those of one.
    fn from_entries(definitions: &Definitions, state: &State) -> Option<Ordered> {
        let mut solution = Solution { messages: BTreeMap::new(), transactions: BTreeMap::new(), next: state.next };
        for (place, entry) in state.entries.iter().enumerate() {
            let name = Origin::Start(place);
            let channel = definitions.channel(entry.port);
            let on_channel = channel.map(|channel| Message { channel, value: entry.value });
            let on_global = on_channel.filter(|message| message.channel.is_global());
            if entry.owner == 0 {
                if entry.kind != kind::MESSAGE {
                    return None;
                }
                solution.messages.insert(name, on_global?);
                continue;
            }
            let transaction = solution.transactions.entry(entry.owner).or_default();
            match (entry.kind, entry.port, entry.value) {
                (kind::MESSAGE, _, _) => {
                    transaction.messages.insert(name, on_channel?);
                }
                (kind::COMPENSATION, _, _) => {
                    transaction.compensation.insert(name, on_global?);
                }
                (kind::ABORT_MARK, 0, 0) => {
                    transaction.aborts.insert(name);
                }
                (kind::MEMBER_MARK, 0, member) => {
                    transaction.members.insert(name, member);
                }
                _ => return None,
            }
        }
        let order = (0..state.entries.len()).map(Origin::Start).collect();
        members_fit(&solution).then_some(Ordered { solution, order })
    }

    /// A move in words, made as the log's move `by`, with at most `ceiling` entries afterwards.
    /// After 12 the solution is no longer of use; any other refusal leaves it as it was.
    pub fn make_words(
        &mut self,
        definitions: &Definitions,
        words: &[u32],
        by: usize,
        ceiling: usize,
    ) -> Result<Made, u32> {
        let mv = Move::from_words(words).ok_or(5u32)?;
        let used = match mv.kind {
            act::REACT => definitions.rules.get(mv.number as usize).ok_or(5u32)?.pattern.len(),
            act::COMMIT | act::ABORT if (1..MAX_NEXT).contains(&mv.number) => 0,
            _ => return Err(5),
        };
        let (picks, unused) = mv.picks.split_at(used);
        if unused.iter().any(|&pick| pick != 0) {
            return Err(5);
        }
        let made = match mv.kind {
            act::REACT => {
                let places = picks.iter().map(|&pick| self.order.get(pick as usize).copied());
                let names = places.collect::<Option<Vec<_>>>().ok_or(7u32)?;
                self.fire(definitions, mv.number as usize, names, by)?
            }
            ending => self.end(ending, mv.number)?,
        };
        if self.order.len() > ceiling {
            return Err(12);
        }
        Ok(made)
    }

    pub fn fire(&mut self, definitions: &Definitions, rule: usize, names: Vec<Origin>, by: usize) -> Result<Made, u32> {
        let fired = self.solution.fire(&definitions.rules[rule], &names, by)?;
        self.keep_order();
        self.order.extend(&fired.products);
        Ok(Made::Fired { rule, names, fired })
    }

    pub fn end(&mut self, ending: u32, id: u32) -> Result<Made, u32> {
        let ended = match ending {
            act::COMMIT => self.solution.commit(id)?,
            _ => self.solution.abort(id)?,
        };
        self.keep_order();
        Ok(Made::Ended { kind: ending, id, ended })
    }

    /// Molecules that are left keep their order.
    fn keep_order(&mut self) {
        let left = self.located();
        self.order.retain(|name| left.contains_key(name));
    }

    /// Each molecule as the entry that shows it.
    fn located(&self) -> BTreeMap<Origin, Entry> {
        let message = |owner, kind| {
            move |(&name, message): (&Origin, &Message)| {
                (name, Entry::new(owner, kind, message.channel.port(), message.value))
            }
        };
        let mut entries: BTreeMap<Origin, Entry> =
            self.solution.messages.iter().map(message(0, kind::MESSAGE)).collect();
        for (&id, transaction) in &self.solution.transactions {
            entries.extend(transaction.messages.iter().map(message(id, kind::MESSAGE)));
            entries.extend(transaction.compensation.iter().map(message(id, kind::COMPENSATION)));
            entries.extend(transaction.aborts.iter().map(|&name| (name, Entry::new(id, kind::ABORT_MARK, 0, 0))));
            entries.extend(
                transaction.members.iter().map(|(&name, &member)| (name, Entry::new(id, kind::MEMBER_MARK, 0, member))),
            );
        }
        entries
    }

    pub fn state(&self) -> State {
        let located = self.located();
        State { next: self.solution.next, entries: self.order.iter().map(|name| located[name]).collect() }
    }
}

/// Members differ, lie from their transaction's id to below `next`, and each transaction is
/// named by a member of its own.
fn members_fit(solution: &Solution) -> bool {
    let mut seen = BTreeSet::new();
    let owned = |(&id, transaction): (&u32, &Transaction)| {
        transaction.members.values().any(|&member| member == id)
            && transaction.members.values().all(|&member| id <= member && member < solution.next && seen.insert(member))
    };
    solution.transactions.iter().all(owned)
}
