//! Transactions with an abort mark (02: stopped batches): states that have some, reactions on messages
//! inside and beside them, and what these reactions met.
use std::collections::BTreeSet;

use super::moves::{aborting, consumes, fitting, open};
use super::states::{fill, state};
use super::tables::{table, Class, Shape};
use crate::random::Random;
use crate::words::{kind, Atom, Entry, Move, State, Table, MAX_ENTRIES, MAX_NEXT};

/// Puts an abort mark into some of the open transactions, often in front of or behind all entries.
pub fn mark(random: &mut Random, state: &mut State, percent: u32) {
    for id in open(state) {
        let n = state.entries.len();
        if n < MAX_ENTRIES && random.chance(percent) {
            let at = random.index(n + 1);
            let at = random.pick(&[0, n, at, at]);
            state.entries.insert(at, Entry::abort_mark(id));
        }
    }
}

/// A table with ports of every class, and a state with abort marks; some states are nearly full, or their
/// ids are used up.
pub fn marked(random: &mut Random) -> (Table, State) {
    let table = table(random, Shape::EveryClass);
    let most = random.pick(&[20, 60, 120]);
    let mut marked = state(random, &table, most, true);
    // Few transactions hardly ever have what a merge of four takes.
    for _ in 0..3 {
        if open(&marked).len() < 4 {
            marked = state(random, &table, most, true);
        }
    }
    match random.below(6) {
        0 => {
            let room = random.index(6);
            fill(random, &table, &mut marked, MAX_ENTRIES - room);
        }
        1 => marked.next = MAX_NEXT,
        _ => {}
    }
    let percent = random.pick(&[5, 20, 50]);
    mark(random, &mut marked, percent);
    (table, marked)
}

/// A reaction that fits its rule but for abort marks, if one is found: none, one, some or all of its picks
/// are in transactions that have one.
pub fn reaction_among(random: &mut Random, table: &Table, state: &State) -> Option<Move> {
    // Rules with more consumes are tried more often, since they find their messages less often.
    let picks = |rule: &usize| consumes(&table.rules[*rule]).len();
    let rules: Vec<usize> = (0..table.rules.len()).flat_map(|rule| vec![rule; picks(&rule)]).collect();
    let tries = if rules.is_empty() { 0 } else { 4 };
    (0..tries).find_map(|_| {
        let rule = random.pick(&rules);
        reaction_of(random, table, state, rule)
    })
}

/// The same with this rule.
fn reaction_of(random: &mut Random, table: &Table, state: &State, rule: usize) -> Option<Move> {
    let picks = consumes(&table.rules[rule]).len();
    let mut in_marked = vec![false; picks];
    match random.below(5) {
        0 => {}
        1 => in_marked.fill(true),
        2 => in_marked.fill_with(|| random.chance(50)),
        _ => in_marked[random.index(picks)] = true,
    }
    match Class::of(table, &table.rules[rule]) {
        Class::Global => in_marked.fill(false),
        Class::Local => in_marked = vec![in_marked[0]; picks],
        Class::Merge => {}
    }
    let aborting = aborting(state);
    fitting(random, table, state, rule, |consume, owner| aborting.contains(&owner) == in_marked[consume])
}

/// A reaction whose picks fit its rule but for abort marks, seen beside them.
struct Seen<'a> {
    rule: &'a [Atom],
    class: Class,
    /// The owner of each pick.
    owners: Vec<u32>,
    /// Whether that has an abort mark.
    in_marked: Vec<bool>,
    /// Some transaction has an abort mark and is not picked from.
    beside: bool,
    full: bool,
}

impl<'a> Seen<'a> {
    fn new(table: &'a Table, state: &State, mv: &Move) -> Seen<'a> {
        let rule = &table.rules[mv.number as usize];
        let picks = consumes(rule).len();
        let owner = |&pick: &u32| state.entries[pick as usize].owner;
        let owners: Vec<u32> = mv.picks[..picks].iter().map(owner).collect();
        let aborting = aborting(state);
        Seen {
            rule,
            class: Class::of(table, rule),
            in_marked: owners.iter().map(|id| aborting.contains(id)).collect(),
            beside: aborting.iter().any(|id| !owners.contains(id)),
            full: state.entries.len() + rule.len() - 2 * picks > MAX_ENTRIES,
            owners,
        }
    }

    fn refused(&self) -> bool {
        self.in_marked.contains(&true)
    }

    fn begins(&self) -> bool {
        self.rule.contains(&Atom::BEGIN)
    }

    /// Exactly this pick is in a transaction with an abort mark.
    fn only(&self, pick: usize) -> bool {
        self.in_marked.iter().enumerate().all(|(other, &marked)| marked == (other == pick))
    }
}

/// The number of a reaction whose picks fit its rule but for abort marks.
pub fn number(table: &Table, state: &State, mv: &Move) -> u32 {
    let seen = Seen::new(table, state, mv);
    if seen.refused() {
        18
    } else if seen.begins() && state.next == MAX_NEXT {
        11
    } else if seen.full {
        12
    } else {
        0
    }
}

/// What such a reaction met.
pub fn met(table: &Table, state: &State, mv: &Move) -> [(&'static str, bool); 20] {
    let seen = Seen::new(table, state, mv);
    let (refused, beside, picks) = (seen.refused(), seen.beside, seen.owners.len());
    let [global, local, merge] = [Class::Global, Class::Local, Class::Merge].map(|class| seen.class == class);
    let ids: BTreeSet<u32> = seen.owners.iter().copied().collect();
    let merges = merge && ids.len() > 1;
    let aborting = aborting(state);
    let marked_ids: Vec<u32> = ids.intersection(&aborting).copied().collect();
    let places = |entry: &Entry| entry.kind == kind::ABORT_MARK && ids.contains(&entry.owner);
    let marks: Vec<usize> = (0..state.entries.len()).filter(|&place| places(&state.entries[place])).collect();
    [
        ("a local rule in one with a mark", local && refused),
        ("a local rule beside one", local && !refused && beside),
        ("a global rule beside one", global && beside && !seen.begins()),
        ("a begin beside one", beside && seen.begins()),
        ("a begin with a mark inside", seen.begins() && seen.rule.contains(&Atom::ABORT)),
        ("a merge rule in a single one with a mark", merge && !merges && picks > 1 && refused),
        ("a merge rule in a single one beside one", merge && !merges && picks > 1 && !refused && beside),
        ("a merge with the first pick in one", merges && seen.only(0)),
        ("a merge with the last pick in one", merges && seen.only(picks - 1)),
        ("a merge of four with the second pick in one", merges && picks == 4 && seen.only(1)),
        ("a merge of four with the third pick in one", merges && picks == 4 && seen.only(2)),
        ("a merge in which the smallest id has a mark", merges && marked_ids == [*ids.first().unwrap()]),
        ("a merge in which the largest id has a mark", merges && marked_ids == [*ids.last().unwrap()]),
        ("a merge of some that all have a mark", merges && marked_ids.len() == ids.len()),
        ("a merge of some beside one", merges && !refused && beside),
        ("a mark that is the first entry", marks == [0]),
        ("a mark that is the last entry", marks == [state.entries.len() - 1]),
        ("a mark and no room", refused && seen.full),
        ("no room beside one", !refused && beside && seen.full),
        ("a begin without an id beside one", beside && seen.begins() && state.next == MAX_NEXT),
    ]
}
