//! Random moves: allowed ones, found by looking for fitting entries, and ones with a fault.
use std::collections::BTreeSet;

use crate::random::Random;
use crate::words::{act, kind, role, Entry, Move, State, Table};

/// The open transactions, each id once.
pub fn open(state: &State) -> Vec<u32> {
    let mut ids: Vec<u32> = state.entries.iter().map(|entry| entry.owner).filter(|&owner| owner != 0).collect();
    ids.sort_unstable();
    ids.dedup();
    ids
}

/// The transactions with an abort mark (02: stopped batches).
pub fn aborting(state: &State) -> BTreeSet<u32> {
    state.entries.iter().filter(|entry| entry.kind == kind::ABORT_MARK).map(|entry| entry.owner).collect()
}

fn owned(state: &State, id: u32) -> impl Iterator<Item = &Entry> {
    state.entries.iter().filter(move |entry| entry.owner == id)
}

/// The commit or abort that the transaction is ready for.
pub fn end(table: &Table, state: &State, id: u32) -> Option<Move> {
    let aborting = owned(state, id).any(|entry| entry.kind == kind::ABORT_MARK);
    let unfinished = owned(state, id).any(|entry| entry.kind == kind::MESSAGE && entry.port >= table.global);
    match (aborting, unfinished) {
        (true, _) => Some(Move::abort(id)),
        (false, false) => Some(Move::commit(id)),
        (false, true) => None,
    }
}

pub fn consumes(rule: &[crate::words::Atom]) -> Vec<u32> {
    rule.iter().filter(|atom| atom.role == role::CONSUME).map(|atom| atom.port).collect()
}

/// A reaction of this rule on random fitting messages, if some are found.
pub fn reaction(random: &mut Random, table: &Table, state: &State, rule: usize) -> Option<Move> {
    let aborting = aborting(state);
    fitting(random, table, state, rule, |_, owner| !aborting.contains(&owner))
}

/// A reaction of this rule on random messages whose ports and owners fit it, if some are found. Which
/// owners a consume takes from is asked with its number; abort marks are not looked at.
pub fn fitting(
    random: &mut Random,
    table: &Table,
    state: &State,
    rule: usize,
    takes_from: impl Fn(usize, u32) -> bool,
) -> Option<Move> {
    let ports = consumes(&table.rules[rule]);
    let global = ports[0] < table.global;
    let local = !global && ports[0] < table.global + table.local;
    let mut picks: Vec<u32> = Vec::new();
    for (consume, &port) in ports.iter().enumerate() {
        let owner = picks.first().map(|&first| state.entries[first as usize].owner);
        let fits = |(place, entry): (usize, &Entry)| {
            let place = place as u32;
            let owner_fits = (entry.owner == 0) == global && (!local || owner.is_none_or(|owner| owner == entry.owner));
            let fits = entry.kind == kind::MESSAGE && entry.port == port && owner_fits && !picks.contains(&place);
            (fits && takes_from(consume, entry.owner)).then_some(place)
        };
        let found: Vec<u32> = state.entries.iter().enumerate().filter_map(fits).collect();
        if found.is_empty() {
            return None;
        }
        picks.push(random.pick(&found));
    }
    Some(Move::react(rule as u32, &picks))
}

/// A move that the state allows but for the limits; ends are tried `end_percent` times in 100.
pub fn allowed(random: &mut Random, table: &Table, state: &State, end_percent: u32) -> Option<Move> {
    for _ in 0..12 {
        let found = if random.chance(end_percent) {
            let open = open(state);
            if open.is_empty() {
                None
            } else {
                end(table, state, random.pick(&open))
            }
        } else if table.rules.is_empty() {
            None
        } else {
            let rule = random.index(table.rules.len());
            reaction(random, table, state, rule)
        };
        if found.is_some() {
            return found;
        }
    }
    None
}

/// A move in words with something changed, often one that is refused.
pub fn changed(random: &mut Random, table: &Table, state: &State) -> Vec<u32> {
    let fallback = Move { kind: random.below(4), number: random.below(8), picks: [0; 4] };
    let mut mv = allowed(random, table, state, 30).unwrap_or(fallback);
    let n = state.entries.len() as u32;
    let used = match table.rules.get(mv.number as usize) {
        Some(rule) if mv.kind == act::REACT && random.chance(90) => consumes(rule).len(),
        _ => 4,
    };
    let at = random.index(used);
    match random.below(10) {
        0 => mv.picks[at] = random.pick(&[n, n.wrapping_sub(1), n + 1, u32::MAX, 0]),
        1 => mv.picks[at] = random.below(n.max(1)),
        2 => mv.picks[at] = mv.picks[random.index(used)],
        3 => mv.number = random.pick(&[0, 1, 65_535, 65_536, 0xFF_FFFF, table.rules.len() as u32]),
        4 => mv.number = random.below(table.rules.len() as u32 + 2),
        5 => mv.kind = random.pick(&[act::REACT, act::COMMIT, act::ABORT, 3, 255]),
        6 => {
            // Another entry on the same port: another owner, another kind.
            let port = state.entries.get(mv.picks[at] as usize).map(|entry| entry.port);
            let like: Vec<u32> = (0..n).filter(|&place| Some(state.entries[place as usize].port) == port).collect();
            if !like.is_empty() {
                mv.picks[at] = random.pick(&like);
            }
        }
        7 => {
            let open = open(state);
            let id = if open.is_empty() { random.between(1, 9) } else { random.pick(&open) };
            mv = Move { kind: random.between(1, 2), number: id, picks: [0; 4] };
        }
        8 if !table.rules.is_empty() => {
            // Abort marks are not looked at.
            let rule = random.index(table.rules.len());
            mv = fitting(random, table, state, rule, |_, _| true).unwrap_or(mv);
        }
        _ => mv = Move { kind: random.between(1, 2), number: random.between(1, 20), picks: [0; 4] },
    }
    mv.words()
}
