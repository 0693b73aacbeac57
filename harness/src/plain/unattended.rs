//! Unattended running: the first move of the list, found without the list.
//!
//! Whether a rule has a reaction depends only on how many messages wait on its ports, for a local rule inside one
//! transaction. So each step counts the messages by port in one pass, and places are looked for only where a rule has
//! all that it takes.
use super::state::{Marks, State};
use super::step::Call;
use super::table::{Class, Rule, Table};
use crate::words::{act, kind, role, MAX_CONSUMES, MAX_ENTRIES, MAX_NEXT};

/// Where entries are counted that no rule may take.
const NO_PORT: u32 = 256;
/// The port of a consume that a rule has not; no entry is there.
const NO_CONSUME: u32 = u32::MAX;
/// So many bits hold one of the counts in a word.
const BITS: usize = 16;

/// How the messages on each port are counted.
#[derive(Clone, Copy, PartialEq, Eq)]
pub enum Counting {
    /// At each step, in a pass over the entries.
    Anew,
    /// By what each reaction takes and makes. A pass is made only behind an end or an abort mark, which change what may
    /// be taken of a whole transaction.
    Along,
}

/// The moves of an unattended run, in columns, and whether none is enabled after them.
pub struct Log {
    pub heads: Vec<u32>,
    pub picks: Vec<[u32; MAX_CONSUMES]>,
    pub still: bool,
}

/// Makes first moves until there is none or the budget is used up.
pub fn log(table: &Table, mut state: State, budget: usize, counting: Counting) -> Log {
    let mut search = Search::new(table, &state, budget, counting);
    let mut log = Log { heads: Vec::with_capacity(budget), picks: Vec::with_capacity(budget), still: false };
    loop {
        let Some(first) = search.first(&state) else {
            log.still = true;
            return log;
        };
        if log.heads.len() == budget {
            return log;
        }
        search.make(&mut state, &first);
        log.heads.push(first.head);
        log.picks.push(first.picks);
    }
}

/// A move that is enabled.
struct First {
    call: Call,
    head: u32,
    picks: [u32; MAX_CONSUMES],
}

/// What a rule takes.
struct Takes {
    rule: Rule,
    ports: [u32; MAX_CONSUMES],
    /// How many messages on its port each consume wants, with those of the consumes before it.
    wants: [u32; MAX_CONSUMES],
    /// With more entries it has no room.
    most: usize,
    /// It leaves an abort mark.
    aborts: bool,
}

impl Takes {
    fn new(table: &Table, rule: Rule) -> Takes {
        let atoms = &table.atoms[rule.first..rule.end];
        let (mut ports, mut wants) = ([NO_CONSUME; MAX_CONSUMES], [0; MAX_CONSUMES]);
        for (j, atom) in atoms[..rule.consumes].iter().enumerate() {
            ports[j] = atom >> 16;
            wants[j] = ports[..=j].iter().filter(|&&port| port == ports[j]).count() as u32;
        }
        let most = MAX_ENTRIES + 2 * rule.consumes - atoms.len();
        Takes { rule, ports, wants, most, aborts: atoms[atoms.len() - 1] >> 28 == role::ABORT }
    }

    fn ports(&self) -> &[u32] {
        &self.ports[..self.rule.consumes]
    }

    /// Whether there is an id, room and enough messages on each port, whoever has them.
    fn may_fit(&self, state: &State, on_port: &[u32]) -> bool {
        let enough = |(&port, &wants): (&u32, &u32)| on_port[port as usize] >= wants;
        self.ports().iter().zip(&self.wants).all(enough)
            && state.items.len() <= self.most
            && !(self.rule.begins && state.next == MAX_NEXT)
    }

    /// The first places for the consumes, of entries for which `may` holds; there are enough of them.
    fn places(&self, state: &State, may: impl Fn(u32) -> bool, sure: impl Fn(u32) -> bool) -> [u32; MAX_CONSUMES] {
        let mut picks = [0; MAX_CONSUMES];
        for (j, &port) in self.ports().iter().enumerate() {
            // Behind the last pick on this port.
            let last = (0..j).rev().find(|&i| self.ports[i] == port);
            let from = last.map_or(0, |i| picks[i] as usize + 1);
            let on_port = |owner: u32, item: u32| (item >> 16 == port) & may(owner);
            picks[j] = find(state, from, on_port, |place| sure(state.owners[place])).expect("enough messages") as u32;
        }
        picks
    }
}

/// The first place from here on with an entry for which both hold. A chunk is compared by `may` at once, and only where
/// that holds `sure` is asked.
fn find(state: &State, from: usize, may: impl Fn(u32, u32) -> bool, sure: impl Fn(usize) -> bool) -> Option<usize> {
    let chunks = state.owners[from..].chunks(32).zip(state.items[from..].chunks(32));
    for (chunk, (owners, items)) in chunks.enumerate() {
        let fits = |(&owner, &item): (&u32, &u32)| may(owner, item);
        if !owners.iter().zip(items).fold(false, |found, entry| found | fits(entry)) {
            continue;
        }
        let places = (from + 32 * chunk..).zip(owners.iter().zip(items));
        let mut found = places.filter(|&(place, entry)| fits(entry) && sure(place)).map(|(place, _)| place);
        if let Some(place) = found.next() {
            return Some(place);
        }
    }
    None
}

/// What is kept from step to step.
struct Search<'a> {
    table: &'a Table<'a>,
    rules: Vec<Takes>,
    counting: Counting,
    /// The messages on each port that rules may take.
    on_port: [u32; NO_PORT as usize + 1],
    /// These are of the present state.
    counted: bool,
    /// The transactions with an abort mark. They take part in no reaction, and their ids do not come again.
    aborting: Marks,
    /// What each transaction has for the consumes of a local rule, while one is looked for.
    inside: Vec<u64>,
    /// The step in which each transaction was last seen to be unfinished.
    unfinished: Vec<u32>,
    step: u32,
}

impl<'a> Search<'a> {
    fn new(table: &'a Table<'a>, state: &State, budget: usize, counting: Counting) -> Search<'a> {
        let mut aborting = Marks::new();
        for (&owner, &item) in state.owners.iter().zip(&state.items) {
            if item >> 24 == kind::ABORT_MARK {
                aborting.add(owner);
            }
        }
        // Ids grow by one for each move at most.
        let ids = state.next as usize + budget;
        Search {
            table,
            rules: table.rules.iter().map(|&rule| Takes::new(table, rule)).collect(),
            counting,
            on_port: [0; NO_PORT as usize + 1],
            counted: false,
            aborting,
            inside: vec![0; ids],
            unfinished: vec![0; ids],
            step: 0,
        }
    }

    /// The first enabled move.
    fn first(&mut self, state: &State) -> Option<First> {
        self.step += 1;
        if !self.counted {
            self.count(state);
        }
        for number in 0..self.rules.len() {
            if let Some(picks) = self.picks(state, number) {
                return Some(First { call: Call::React(self.rules[number].rule), head: number as u32, picks });
            }
        }
        let end =
            |call: fn(u32) -> Call, act: u32, id: u32| First { call: call(id), head: act << 24 | id, picks: [0; 4] };
        let commit = self.commit(state).map(|id| end(Call::Commit, act::COMMIT, id));
        commit.or_else(|| abort(state).map(|id| end(Call::Abort, act::ABORT, id)))
    }

    fn make(&mut self, state: &mut State, first: &First) {
        let id = state.make(self.table, first.call, &first.picks).expect("an enabled move");
        let Call::React(rule) = first.call else {
            self.counted = false;
            return;
        };
        let aborts = self.rules[first.head as usize].aborts;
        if aborts {
            self.aborting.add(id);
        }
        self.counted = self.counting == Counting::Along && !(aborts && rule.class != Class::Global);
        if self.counted {
            self.count_along(rule, aborts);
        }
    }

    /// What a reaction has taken, and what it has made that may be taken.
    fn count_along(&mut self, rule: Rule, aborts: bool) {
        for atom in &self.table.atoms[rule.first..rule.end] {
            let port = atom >> 16 & 0xFF;
            let global = port < self.table.global;
            let count = &mut self.on_port[port as usize];
            match atom >> 28 {
                role::CONSUME => *count -= 1,
                role::EMIT => *count += u32::from(global == (rule.class == Class::Global)),
                role::BODY => *count += u32::from(!global && !aborts),
                _ => {}
            }
        }
    }

    fn count(&mut self, state: &State) {
        self.on_port.fill(0);
        let global = self.table.global;
        let entries = state.owners.iter().zip(&state.items);
        // Only the plant's messages on global ports may be taken; on other ports the plant has none.
        let bin = |owner: u32, item: u32| {
            let port = (item >> 16).min(NO_PORT);
            if (owner == 0) == (port < global) {
                port
            } else {
                NO_PORT
            }
        };
        if state.aborts == 0 {
            entries.for_each(|(&owner, &item)| self.on_port[bin(owner, item) as usize] += 1);
        } else {
            for (&owner, &item) in entries {
                let bin = if self.aborting.has(owner) { NO_PORT } else { bin(owner, item) };
                self.on_port[bin as usize] += 1;
            }
        }
    }

    /// The first picks with which this rule reacts.
    fn picks(&mut self, state: &State, number: usize) -> Option<[u32; MAX_CONSUMES]> {
        let takes = &self.rules[number];
        if !takes.may_fit(state, &self.on_port) {
            return None;
        }
        let aborting = |owner: u32| state.aborts > 0 && self.aborting.has(owner);
        match takes.rule.class {
            Class::Global => Some(takes.places(state, |owner| owner == 0, |_| true)),
            Class::Local if takes.rule.consumes > 1 => {
                let id = self.having_all(state, number)?;
                Some(self.rules[number].places(state, |owner| owner == id, |_| true))
            }
            Class::Local | Class::Merge => Some(takes.places(state, |_| true, |owner| !aborting(owner))),
        }
    }

    /// The transaction of the first message for a local rule that has all that the rule takes.
    fn having_all(&mut self, state: &State, number: usize) -> Option<u32> {
        const HIGH: u64 = 0x8000_8000_8000_8000;
        let Takes { ports, wants, .. } = &self.rules[number];
        for (&owner, &item) in state.owners.iter().zip(&state.items) {
            let on = |j: usize| u64::from(item >> 16 == ports[j]) << (BITS * j);
            // Without a branch, since ports and owners follow no pattern.
            self.inside[owner as usize] += on(0) + on(1) + on(2) + on(3);
        }
        // A count reaches the highest of its bits where it is as large as wanted.
        let missing = (0..MAX_CONSUMES).fold(HIGH, |word, j| word - (u64::from(wants[j]) << (BITS * j)));
        let has_all = |owner: u32| (self.inside[owner as usize] + missing) & HIGH == HIGH;
        let sure = |place: usize| {
            let owner = state.owners[place];
            has_all(owner) && !(state.aborts > 0 && self.aborting.has(owner))
        };
        let place = find(state, 0, |_, item| item >> 16 == ports[0], sure);
        state.owners.iter().for_each(|&owner| self.inside[owner as usize] = 0);
        place.map(|place| state.owners[place])
    }

    /// The smallest transaction that can be committed.
    fn commit(&mut self, state: &State) -> Option<u32> {
        self.unfinished[0] = self.step;
        for (&owner, &item) in state.owners.iter().zip(&state.items) {
            let port = item >> 16;
            if (port >= self.table.global && port < NO_PORT) || item >> 24 == kind::ABORT_MARK {
                self.unfinished[owner as usize] = self.step;
            }
        }
        state.owners.iter().copied().filter(|&owner| self.unfinished[owner as usize] != self.step).min()
    }
}

/// The smallest transaction that can be aborted.
fn abort(state: &State) -> Option<u32> {
    let marked = |(&owner, &item): (&u32, &u32)| if item >> 24 == kind::ABORT_MARK { owner } else { u32::MAX };
    let smallest = state.owners.iter().zip(&state.items).map(marked).min();
    smallest.filter(|_| state.aborts > 0)
}
