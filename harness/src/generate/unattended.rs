//! Plants that are left alone, and what their logs had in them.
use std::collections::BTreeSet;

use super::aborting::{mark, marked};
use super::lists::listed;
use super::moves::{aborting, consumes, open};
use super::states::{fill, highest_member, messages, state};
use super::tables::{table, Class, Shape};
use crate::random::Random;
use crate::words::{act, kind, role, Atom, Entry, Move, State, Table, MAX_ENTRIES, MAX_NEXT};

/// A table and a state under it: any that has a list, one with abort marks, one whose transactions can all be ended,
/// one whose local rules find only a part of what they take, one that loses messages with each reaction, or one that
/// has ends alone.
pub fn plant(random: &mut Random, round: usize) -> (Table, State) {
    match round % 8 {
        0 | 1 => listed(random, round / 8),
        2 => marked(random),
        3 => {
            let table = table(random, Shape::Closable);
            let n = random.index(12);
            let start = messages(random, &table, n);
            (table, start)
        }
        4 | 5 => in_parts(random),
        6 => shrinking(random),
        _ => only_ends(random),
    }
}

/// Rules of two to four consumes on few local ports, which are often the same, and transactions with few messages
/// there.
fn in_parts(random: &mut Random) -> (Table, State) {
    let mut table = Table { global: 1, local: random.between(1, 3), merge: random.below(2), rules: Vec::new() };
    for _ in 0..random.between(1, 5) {
        let consumed = random.between(2, 4);
        let mut rule: Vec<Atom> = (0..consumed).map(|_| Atom::consume(random.between(1, table.local))).collect();
        for _ in 0..random.below(consumed) {
            rule.push(Atom::received(role::EMIT, random.below(table.ports()), random.below(consumed)));
        }
        if random.chance(15) {
            rule.push(Atom::ABORT);
        }
        table.rules.push(rule);
    }
    let mut entries = Vec::new();
    let ids = random.between(1, 6);
    for id in 1..=ids {
        entries.push(Entry::member_mark(id, id));
        for _ in 0..random.below(5) {
            entries.push(Entry::message(id, random.between(1, table.local), random.below(9)));
        }
    }
    random.shuffle(&mut entries);
    let mut state = State { next: ids + 1, entries };
    let percent = random.pick(&[0, 20]);
    mark(random, &mut state, percent);
    (table, state)
}

/// A table whose rules make fewer messages than they take, but for begins, and few ids left for these; some states are
/// nearly full.
fn shrinking(random: &mut Random) -> (Table, State) {
    let mut table = table(random, Shape::EveryClass);
    for rule in &mut table.rules {
        let consumed = consumes(rule).len();
        if !rule.contains(&Atom::BEGIN) {
            rule.truncate(2 * consumed - 1);
        }
    }
    let most = random.pick(&[6, 12, 30]);
    let mut state = state(random, &table, most, true);
    state.next = (highest_member(&state.entries) + 1).max(MAX_NEXT - random.below(5));
    if random.chance(20) {
        let room = random.index(4);
        fill(random, &table, &mut state, MAX_ENTRIES - room);
    }
    (table, state)
}

/// A state in which nothing can be taken, with transactions that can be ended; what they leave can sometimes be taken.
fn only_ends(random: &mut Random) -> (Table, State) {
    let table = table(random, Shape::EveryClass);
    let most = random.pick(&[5, 20, 60]);
    let mut state = state(random, &table, most, true);
    let stays = |entry: &Entry| entry.kind != kind::MESSAGE || (entry.owner != 0 && entry.port < table.global);
    state.entries.retain(stays);
    let percent = random.pick(&[0, 30, 100]);
    mark(random, &mut state, percent);
    (table, state)
}

/// A state of a log that was made alone, and the first move in it, if there is one.
pub struct Step<'a> {
    pub table: &'a Table,
    pub state: State,
    pub first: Option<Move>,
}

impl Step<'_> {
    /// The places of the messages that rules may take from this port, and with them those of transactions with an abort
    /// mark.
    fn on_port(&self, port: u32, with_marked: bool) -> Vec<u32> {
        let aborting = aborting(&self.state);
        let fits = |entry: &Entry| {
            entry.kind == kind::MESSAGE
                && entry.port == port
                && (entry.owner == 0) == (port < self.table.global)
                && (with_marked || !aborting.contains(&entry.owner))
        };
        let places = self.state.entries.iter().enumerate().filter(|(_, entry)| fits(entry));
        places.map(|(place, _)| place as u32).collect()
    }

    /// Whether each consume of a rule finds a message of its own, whoever has it.
    fn finds_all(&self, rule: &[Atom], with_marked: bool) -> bool {
        let ports = consumes(rule);
        let wanted = |port: &u32| ports.iter().filter(|other| *other == port).count();
        ports.iter().all(|port| self.on_port(*port, with_marked).len() >= wanted(port))
    }

    fn reaction(&self) -> Option<(Move, &[Atom], Class)> {
        let first = self.first.filter(|first| first.kind == act::REACT)?;
        let rule = &self.table.rules[first.number as usize];
        Some((first, rule, Class::of(self.table, rule)))
    }

    /// The rules before the first move's; all if that is an end or there is none.
    fn passed_over(&self) -> &[Vec<Atom>] {
        let end = self.reaction().map_or(self.table.rules.len(), |(first, ..)| first.number as usize);
        &self.table.rules[..end]
    }

    fn met_rules(&self) -> Vec<(&'static str, bool)> {
        let passed_over = |holds: &dyn Fn(&[Atom]) -> bool| self.passed_over().iter().any(|rule| holds(rule));
        let local = |rule: &[Atom]| Class::of(self.table, rule) == Class::Local && consumes(rule).len() > 1;
        let room = |rule: &[Atom]| self.state.entries.len() + rule.len() <= MAX_ENTRIES + 2 * consumes(rule).len();
        let id = |rule: &[Atom]| !rule.contains(&Atom::BEGIN) || self.state.next < MAX_NEXT;
        let finds = |rule: &[Atom]| self.finds_all(rule, false);
        vec![
            ("a rule passed over without messages", passed_over(&|rule| !self.finds_all(rule, true))),
            ("a rule passed over for abort marks", passed_over(&|rule| self.finds_all(rule, true) && !finds(rule))),
            (
                "a local rule passed over, no transaction has all",
                passed_over(&|rule| local(rule) && room(rule) && finds(rule)),
            ),
            ("a rule passed over without room", passed_over(&|rule| finds(rule) && !room(rule))),
            ("a begin passed over without an id", passed_over(&|rule| finds(rule) && !id(rule))),
        ]
    }

    /// Whether the first move is a reaction for which this holds.
    fn reacts(&self, holds: impl Fn(Move, &[Atom], Class) -> bool) -> bool {
        self.reaction().is_some_and(|(first, rule, class)| holds(first, rule, class))
    }

    fn met_reaction(&self) -> Vec<(&'static str, bool)> {
        let of = |wanted: Class| self.reacts(|_, _, class| class == wanted);
        let has = |atom: Atom| self.reacts(|_, rule, _| rule.contains(&atom));
        // So many consumes of one port.
        let same = |count: usize| {
            self.reacts(|_, rule, _| {
                let ports = consumes(rule);
                ports.iter().any(|port| ports.iter().filter(|other| *other == port).count() == count)
            })
        };
        vec![
            ("a global rule", of(Class::Global)),
            ("a local rule", of(Class::Local)),
            ("a merge rule", of(Class::Merge)),
            ("a begin", has(Atom::BEGIN)),
            ("a rule that leaves an abort mark", has(Atom::ABORT)),
            ("two of one port", same(2)),
            ("three of one port", same(3)),
            ("four of one port", same(4)),
        ]
    }

    fn met_picks(&self) -> Vec<(&'static str, bool)> {
        let owner = |pick: &u32| self.state.entries[*pick as usize].owner;
        let picks = |first: Move, rule: &[Atom]| first.picks[..consumes(rule).len()].to_vec();
        let several =
            |first: Move, rule: &[Atom]| picks(first, rule).iter().map(owner).collect::<BTreeSet<_>>().len() > 1;
        let falls = |first: Move, rule: &[Atom]| picks(first, rule).windows(2).any(|pair| pair[0] > pair[1]);
        // The first pick is not the first message on its port.
        let later = |first: Move, rule: &[Atom], marked: bool| self.on_port(rule[0].port, marked)[0] < first.picks[0];
        let local = |rule: &[Atom], class: Class| class == Class::Local && consumes(rule).len() > 1;
        let for_mark = |first: Move, rule: &[Atom]| later(first, rule, true) && !later(first, rule, false);
        vec![
            ("a merge of several", self.reacts(|first, rule, _| several(first, rule))),
            ("a pick before the one before it", self.reacts(|first, rule, _| falls(first, rule))),
            ("a local rule of several consumes", self.reacts(|_, rule, class| local(rule, class))),
            ("a message passed over, not all beside it", self.reacts(|first, rule, _| later(first, rule, false))),
            ("a message passed over for an abort mark", self.reacts(|first, rule, _| for_mark(first, rule))),
        ]
    }

    fn met_end(&self) -> Vec<(&'static str, bool)> {
        let ends = |kind: u32| self.first.is_some_and(|first| first.kind == kind);
        let id = self.first.map_or(0, |first| first.number);
        let marked = aborting(&self.state);
        vec![
            ("a commit", ends(act::COMMIT)),
            (
                "a commit before the abort of a smaller id",
                ends(act::COMMIT) && marked.first().is_some_and(|&other| other < id),
            ),
            ("a commit of another than the first owner", ends(act::COMMIT) && self.state.entries[0].owner != id),
            ("an abort", ends(act::ABORT)),
            ("an abort before one of a larger id", ends(act::ABORT) && marked.len() > 1),
            ("an abort beside one that cannot end", ends(act::ABORT) && open(&self.state).len() > marked.len()),
            ("nothing enabled beside transactions", self.first.is_none() && !open(&self.state).is_empty()),
            (
                "nothing enabled beside messages",
                self.first.is_none() && self.state.entries.iter().any(|entry| entry.kind == kind::MESSAGE),
            ),
        ]
    }

    /// What the step had in it.
    pub fn met(&self) -> Vec<(&'static str, bool)> {
        [self.met_rules(), self.met_reaction(), self.met_picks(), self.met_end()].concat()
    }
}
