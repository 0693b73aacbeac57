//! Tables and states for the list of enabled moves, and what the lists had in them.
use std::collections::BTreeSet;

use super::aborting::mark;
use super::logs::Walk;
use super::moves::{aborting, consumes, fitting, reaction};
use super::states::{fill, highest_member, messages, state};
use super::tables::{table, Class, Shape};
use crate::random::Random;
use crate::words::{act, Atom, Move, State, Table, MAX_ENTRIES, MAX_NEXT, MAX_PAGE_MOVES};

/// A table and a state under it: one that moves have led to, one with little room left, one whose ids
/// are used up or nearly so, or any. Half of them get abort marks.
pub fn listed(random: &mut Random, round: usize) -> (Table, State) {
    let table = table(random, [Shape::Small, Shape::Any, Shape::EveryClass, Shape::Closable, Shape::Small][round % 5]);
    let most = random.pick(&[3, 8, 20, 60]);
    let mut state = state(random, &table, most, true);
    match round % 4 {
        0 if table.global > 0 => {
            let mut walk = Walk::new(&table, &messages(random, &table, most));
            walk.wander(random, 25, 10);
            state = walk.state;
        }
        1 => {
            let room = random.index(14);
            fill(random, &table, &mut state, MAX_ENTRIES - room);
        }
        2 => state.next = (highest_member(&state.entries) + 1).max(random.pick(&[MAX_NEXT - 1, MAX_NEXT])),
        _ => {}
    }
    let percent = random.pick(&[0, 0, 20, 50]);
    mark(random, &mut state, percent);
    (table, state)
}

/// Whether a rule that finds its messages is not listed for want of an id, and one for want of room.
fn left_out(random: &mut Random, table: &Table, state: &State, list: &[Move]) -> [bool; 2] {
    let mut left_out = [false; 2];
    for (number, rule) in table.rules.iter().enumerate() {
        let listed = list.iter().any(|mv| mv.kind == act::REACT && mv.number == number as u32);
        if !listed && reaction(random, table, state, number).is_some() {
            let wants_id = rule.contains(&Atom::BEGIN) && state.next == MAX_NEXT;
            left_out[usize::from(!wants_id)] = true;
        }
    }
    left_out
}

/// Whether this rule, which takes from transactions, loses moves to abort marks: all that it has, or some.
fn lost(random: &mut Random, table: &Table, state: &State, number: usize) -> [bool; 2] {
    let aborting = aborting(state);
    let mut in_marked = |pick: usize| {
        let takes = |consume: usize, owner: u32| consume != pick || aborting.contains(&owner);
        fitting(random, table, state, number, takes).is_some()
    };
    let loses = (0..consumes(&table.rules[number]).len()).any(&mut in_marked);
    let keeps = reaction(random, table, state, number).is_some();
    [loses && !keeps, loses && keeps]
}

/// What a list had in it.
pub fn met(random: &mut Random, table: &Table, state: &State, list: &[Move]) -> [(&'static str, bool); 19] {
    let has = |kind: u32| list.iter().any(|mv| mv.kind == kind);
    let rule = |mv: &Move| &table.rules[mv.number as usize];
    let picks = |mv: &Move| mv.picks[..consumes(rule(mv)).len()].to_vec();
    let owners =
        |mv: &Move| -> BTreeSet<u32> { picks(mv).into_iter().map(|pick| state.entries[pick as usize].owner).collect() };
    let turned = |mv: &Move| {
        let mut picks = picks(mv);
        picks.reverse();
        picks.len() > 1 && list.contains(&Move::react(mv.number, &picks))
    };
    let reacts = |holds: &dyn Fn(&Move) -> bool| list.iter().any(|mv| mv.kind == act::REACT && holds(mv));
    let of_class = |class: Class| reacts(&|mv| Class::of(table, rule(mv)) == class);
    let [no_id, no_room] = left_out(random, table, state, list);
    let begins = reacts(&|mv| rule(mv).contains(&Atom::BEGIN));
    let marked = !aborting(state).is_empty();
    let mut loses = |class: Class| {
        let rules = (0..table.rules.len()).filter(|&number| Class::of(table, &table.rules[number]) == class);
        let lost: Vec<[bool; 2]> = rules.map(|number| lost(random, table, state, number)).collect();
        [0, 1].map(|part| lost.iter().any(|lost| lost[part]))
    };
    let ([local_lost, local_cut], [merge_lost, merge_cut]) = (loses(Class::Local), loses(Class::Merge));
    [
        ("nothing", list.is_empty()),
        ("more than a page", list.len() > MAX_PAGE_MOVES),
        ("a global rule", of_class(Class::Global)),
        ("a local rule", of_class(Class::Local)),
        ("a merge rule", of_class(Class::Merge)),
        ("a merge of several", reacts(&|mv| owners(mv).len() > 1)),
        ("a local rule left out for abort marks", local_lost),
        ("a local rule with moves left out for abort marks", local_cut),
        ("a merge rule left out for abort marks", merge_lost),
        ("a merge rule with moves left out for abort marks", merge_cut),
        ("a global rule beside an abort mark", marked && of_class(Class::Global)),
        ("picks in two orders", reacts(&turned)),
        ("a commit", has(act::COMMIT)),
        ("an abort", has(act::ABORT)),
        ("a commit and an abort", has(act::COMMIT) && has(act::ABORT)),
        ("the begin of the last id", begins && state.next == MAX_NEXT - 1),
        ("a rule left out for want of an id", no_id),
        ("a rule left out for want of room", no_room),
        ("another rule where one has no room", no_room && has(act::REACT)),
    ]
}
