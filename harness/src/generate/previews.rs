//! Moves to preview, and what the accepted ones had in them.
use std::collections::BTreeSet;

use super::aborting::{marked, reaction_among};
use super::lists::listed;
use super::moves::{allowed, changed, consumes, open};
use super::states::state;
use super::tables::{table, Class, Shape};
use crate::random::Random;
use crate::words::{act, kind, role, Atom, Move, State, Table, MAX_ENTRIES, MAX_NEXT};

/// A table, a state of any kind, and the words of a move: one that is allowed but for the limits, one that
/// meets abort marks or other owners, or one with something changed.
pub fn asked(random: &mut Random, round: usize) -> (Table, State, Vec<u32>) {
    let (table, state) = match round % 3 {
        0 => marked(random),
        1 => listed(random, round),
        _ => crowded(random),
    };
    let mv = match random.below(8) {
        0 | 1 => None,
        2 => reaction_among(random, &table, &state),
        3 => on_ports(random, &table, &state),
        _ => allowed(random, &table, &state, 30),
    };
    let words = mv.map(Move::words).unwrap_or_else(|| changed(random, &table, &state));
    (table, state, words)
}

/// A table with ports of every class, and a state without abort marks, often of many transactions, so that
/// merges find their messages.
fn crowded(random: &mut Random) -> (Table, State) {
    let table = table(random, Shape::EveryClass);
    let mut crowded = state(random, &table, 120, true);
    crowded.entries.retain(|entry| entry.kind != kind::ABORT_MARK);
    (table, crowded)
}

/// A reaction on messages that are on the right ports, whoever owns them, if some are found.
fn on_ports(random: &mut Random, table: &Table, state: &State) -> Option<Move> {
    let rule = random.index(table.rules.len().max(1));
    let mut picks: Vec<u32> = Vec::new();
    for port in consumes(table.rules.get(rule)?) {
        let fits = |&place: &usize| state.entries[place].kind == kind::MESSAGE && state.entries[place].port == port;
        let found: Vec<u32> = (0..state.entries.len()).filter(fits).map(|place| place as u32).collect();
        let left: Vec<u32> = found.into_iter().filter(|place| !picks.contains(place)).collect();
        picks.push((!left.is_empty()).then(|| random.pick(&left))?);
    }
    Some(Move::react(rule as u32, &picks))
}

/// What an accepted move picks by which rule; nothing for an end.
struct Reaction<'a> {
    rule: &'a [Atom],
    class: Option<Class>,
    /// The owner of each pick.
    owners: Vec<u32>,
}

impl<'a> Reaction<'a> {
    fn new(table: &'a Table, state: &State, mv: &Move) -> Reaction<'a> {
        if mv.kind != act::REACT {
            return Reaction { rule: &[], class: None, owners: Vec::new() };
        }
        let rule = &table.rules[mv.number as usize];
        let picks = &mv.picks[..consumes(rule).len()];
        let owners = picks.iter().map(|&pick| state.entries[pick as usize].owner).collect();
        Reaction { rule, class: Some(Class::of(table, rule)), owners }
    }

    fn has(&self, role: u32) -> bool {
        self.rule.iter().any(|atom| atom.role == role)
    }
}

/// The transaction that an accepted move concerns, by 02's sentence.
pub fn concerned(table: &Table, state: &State, mv: &Move) -> u32 {
    let reaction = Reaction::new(table, state, mv);
    match reaction.class {
        None => mv.number,
        Some(Class::Global) if reaction.has(role::BEGIN) => state.next,
        Some(Class::Global) => 0,
        Some(Class::Local | Class::Merge) => *reaction.owners.iter().min().expect("a pick"),
    }
}

/// What an accepted move had in it; so many entries are left.
pub fn met(table: &Table, state: &State, mv: &Move, entries: usize) -> Vec<(&'static str, bool)> {
    [met_reaction(&Reaction::new(table, state, mv), state), met_end(state, mv), met_room(state, entries)].concat()
}

fn met_reaction(reaction: &Reaction, state: &State) -> Vec<(&'static str, bool)> {
    let [global, local, merge] = [Class::Global, Class::Local, Class::Merge].map(|class| reaction.class == Some(class));
    let (begins, aborts) = (reaction.has(role::BEGIN), reaction.has(role::ABORT));
    let owners = &reaction.owners;
    let ids: BTreeSet<u32> = owners.iter().copied().collect();
    let smallest = |pick: Option<&u32>| pick.is_some() && pick == ids.first();
    let merges = |transactions: usize| merge && ids.len() == transactions;
    let first = owners.iter().position(|owner| smallest(Some(owner)));
    vec![
        ("a global rule", global && !begins && open(state).is_empty()),
        ("a global rule beside transactions", global && !begins && !open(state).is_empty()),
        ("a begin", begins),
        ("a begin that emits", begins && reaction.has(role::EMIT)),
        ("a begin with an abort mark inside", begins && aborts),
        ("the begin of the last id", begins && state.next == MAX_NEXT - 1),
        ("a local rule", local),
        ("a local rule with several picks", local && owners.len() > 1),
        ("a local rule that aborts", local && aborts),
        ("a merge rule with one pick", merge && owners.len() == 1),
        ("a merge rule with several picks in one transaction", merges(1) && owners.len() > 1),
        ("a merge of two", merges(2)),
        ("a merge of three", merges(3)),
        ("a merge of four", merges(4)),
        ("a merge that aborts", merge && ids.len() > 1 && aborts),
        ("a merge whose first pick is in the smallest", merge && ids.len() > 1 && smallest(owners.first())),
        ("a merge whose first pick is in another", merge && !smallest(owners.first())),
        ("a merge whose last pick alone is in the smallest", merge && ids.len() > 1 && first == Some(owners.len() - 1)),
    ]
}

fn met_end(state: &State, mv: &Move) -> Vec<(&'static str, bool)> {
    let count = |kind: u32| {
        let of_kind = state.entries.iter().filter(|entry| entry.owner == mv.number && entry.kind == kind);
        of_kind.count()
    };
    let [messages, compensations, members] = [kind::MESSAGE, kind::COMPENSATION, kind::MEMBER_MARK].map(count);
    let (commits, aborts) = (mv.kind == act::COMMIT, mv.kind == act::ABORT);
    vec![
        ("a commit that frees messages and drops compensations", commits && messages > 0 && compensations > 0),
        ("a commit that frees all but the marks", commits && messages > 0 && compensations == 0),
        ("a commit that frees nothing", commits && messages == 0),
        ("a commit of merged ones", commits && members > 1),
        ("a commit of four or more", commits && members > 3),
        ("an abort that frees compensations and drops messages", aborts && messages > 0 && compensations > 0),
        ("an abort that frees all but the marks", aborts && messages == 0 && compensations > 0),
        ("an abort that frees nothing", aborts && compensations == 0),
        ("an abort of merged ones", aborts && members > 1),
        ("an abort of four or more", aborts && members > 3),
        ("an abort with two abort marks", aborts && count(kind::ABORT_MARK) > 1),
    ]
}

fn met_room(state: &State, entries: usize) -> Vec<(&'static str, bool)> {
    let before = state.entries.len();
    vec![
        ("fewer entries", entries < before),
        ("as many entries", entries == before),
        ("more entries", entries > before),
        ("nothing left", entries == 0),
        ("no room left", entries == MAX_ENTRIES),
        ("no id left", state.next == MAX_NEXT),
    ]
}
