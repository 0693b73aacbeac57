//! The preview of a move: all implementations on right, damaged and random input, each beside the move itself.
mod common;

use std::collections::BTreeSet;

use common::faulty::{any_words, first_fault_counts, long_noise, noise, wrong_words};
use common::{after, after_a, every_rule, make_move, marks_removed, on_target, shown, MAKE_MOVE};
use harness::answer::{order, Answer, Preview};
use harness::generate::coverage::Coverage;
use harness::generate::moves::changed;
use harness::generate::previews::{asked, concerned, met};
use harness::generate::state_faults::StateFault;
use harness::generate::states::state;
use harness::generate::table_faults::TableFault;
use harness::generate::tables::{table, Shape};
use harness::random::Random;
use harness::two_lot::{self, case_a, case_c, case_d};
use harness::words::{role, Atom, Entry, Move, State, Table};
use harness::{library, plain};

/// The one preview of all implementations. Making the move, with a target long enough, has the same number
/// and members and leaves as many entries and the same next id.
fn preview(table: &[u32], state: &[u32], mv: &[u32]) -> Preview {
    let preview = common::preview(table, state, mv);
    let (answer, words) = make_move(table, state, mv);
    let (entries, next) = words.first_chunk().map_or((0, 0), |&[entries, next]| (entries, next));
    let made = Preview { number: answer.number(), entries, next, id: preview.id, members: answer.members() };
    assert_eq!(preview, made, "{}", shown(&[("table", table), ("state", state), ("move", mv)]));
    preview
}

fn react(rule: u32, picks: &[u32]) -> Vec<u32> {
    Move::react(rule, picks).words()
}

/// A reaction, with these entries, next id and id.
#[track_caller]
fn reacts(preview: Preview, [entries, next, id]: [u32; 3]) {
    gives(preview, [entries, next, id, 0]);
}

/// Accepted, with these entries, next id, id and members.
#[track_caller]
fn gives(preview: Preview, [entries, next, id, members]: [u32; 4]) {
    assert_eq!(preview, Preview { number: 0, entries, next, id, members });
}

#[track_caller]
fn refused(preview: Preview, number: u32) {
    assert_eq!(preview, Preview { number, entries: 0, next: 0, id: 0, members: 0 });
}

// Catches a preview that refuses all or has fixed figures, the id after a begin in place of the one before,
// the id of a merge's second pick, an end that takes everything or nothing away, and members of a reaction or of
// one of two that have merged.
#[test]
fn cases_a_c_and_d_move_by_move() {
    let cases: [(Vec<Move>, &[[u32; 4]]); 3] = [
        (case_a(), &two_lot::PREVIEWS_A),
        (case_c(), &[[4, 2, 1, 0], [6, 3, 2, 0], [6, 3, 1, 0], [6, 3, 2, 0], [4, 3, 2, 1]]),
        (case_d(), &[[4, 2, 1, 0], [6, 3, 2, 0], [6, 3, 1, 0], [6, 3, 2, 0], [4, 3, 2, 1], [2, 3, 1, 1]]),
    ];
    for (moves, figures) in cases {
        assert_eq!(moves.len(), figures.len());
        for (place, (mv, figures)) in moves.iter().zip(figures).enumerate() {
            gives(preview(&two_lot::table(), &after(&moves[..place]), &mv.words()), *figures);
        }
    }
}

// Catches a refused move that is shown as one that would be made, and figures beside a refusal.
#[test]
fn cases_b_e_f_g() {
    for case in two_lot::refused() {
        refused(preview(&two_lot::table(), &after_a(case.after), &case.mv.words()), case.number);
    }
    refused(preview(&two_lot::table(), &two_lot::aborting(), &two_lot::merge_with_aborting().words()), 18);
}

// Catches a preview that wants a target: the move has 6 in its place, and so none of what comes after.
#[test]
fn no_target_is_asked_for() {
    let (table, state) = (two_lot::table(), after_a(4));
    for (mv, number) in [(Move::react(2, &[4, 5]), 0), (Move::react(2, &[4, 4]), 7), (Move::commit(1), 10)] {
        for room in [0, 1, 2_049] {
            let (answer, _) = on_target(MAKE_MOVE, [&table, &state, &mv.words()], room);
            assert_eq!(answer, Answer::Refused(6));
        }
        assert_eq!(preview(&table, &state, &mv.words()).number, number);
    }
}

// Catches the id of the first or the last pick, or the largest, and a merge that counts the entries of one
// transaction only: every choice of picks for merges of one to four, also of two in the same transaction.
#[test]
fn a_merge_shows_the_smallest_id() {
    let owners = [9, 4, 30, 7, 30, 12];
    let mut entries: Vec<Entry> = owners.iter().map(|&id| Entry::message(id, 2, id)).collect();
    for id in BTreeSet::from(owners) {
        entries.extend([Entry::member_mark(id, id), Entry::compensation(id, 0, id)]);
    }
    entries.extend([Entry::member_mark(4, 35), Entry::message(0, 0, 1), Entry::member_mark(2, 2)]);
    let n = entries.len() as u32;
    let (table, state) = (every_rule().words(), State { next: 40, entries }.words());
    for (rule, count) in [(2, 1), (3, 2), (4, 3), (5, 4)] {
        for choice in 0..6u32.pow(count) {
            let picks: Vec<u32> = (0..count).map(|level| choice / 6u32.pow(level) % 6).collect();
            let preview = preview(&table, &state, &react(rule, &picks));
            if BTreeSet::from_iter(&picks).len() < picks.len() {
                refused(preview, 7);
            } else {
                let smallest = picks.iter().map(|&pick| owners[pick as usize]).min().unwrap();
                reacts(preview, [n - count + 1, 40, smallest]);
            }
        }
    }
}

// Catches an end that counts what goes as what stays, or takes another transaction's entries or members for its own:
// every number of each kind, up to three.
#[test]
fn ends_count_what_stays() {
    let mut random = Random::new(1_001);
    let table = two_lot::table();
    for choice in 0..4u32.pow(4) {
        let [messages, compensations, members, aborts] = [0, 1, 2, 3].map(|level| choice / 4u32.pow(level) % 4);
        let others = [Entry::message(0, 0, 5), Entry::message(6, 2, 5), Entry::compensation(6, 1, 5)];
        let mut entries = [Entry::member_mark(6, 6), Entry::member_mark(5, 5), Entry::abort_mark(6)].to_vec();
        entries.extend((0..4).flat_map(|_| others));
        entries.extend((0..messages).map(|value| Entry::message(5, value % 2, value)));
        entries.extend((0..compensations).map(|value| Entry::compensation(5, value % 2, value)));
        entries.extend((0..members).map(|member| Entry::member_mark(5, 7 + member)));
        entries.extend((0..aborts).map(|_| Entry::abort_mark(5)));
        random.shuffle(&mut entries);
        let n = entries.len() as u32;
        let state = State { next: 20, entries }.words();
        let [commit, abort] = [Move::commit(5), Move::abort(5)].map(|mv| preview(&table, &state, &mv.words()));
        if aborts == 0 {
            gives(commit, [n - compensations - members - 1, 20, 5, members + 1]);
            refused(abort, 10);
        } else {
            refused(commit, 10);
            gives(abort, [n - messages - members - aborts - 1, 20, 5, members + 1]);
        }
    }
}

// Catches a count of members that is cut short or is off by one: two transactions share the marks of a full state.
#[test]
fn members_of_a_full_state() {
    let table = two_lot::table();
    for members in [1, 2, 4, 31, 32, 33, 255, 256, 257, 511, 512, 513, 1_023, 1_024] {
        let owner = |id: u32| if id <= members { 1 } else { members + 1 };
        let state = State { next: 1_025, entries: (1..=1_024).map(|id| Entry::member_mark(owner(id), id)).collect() };
        gives(preview(&table, &state.words(), &Move::commit(1).words()), [1_024 - members, 1_025, 1, members]);
    }
}

// Catches a commit that is shown with a message off the global ports inside, and an id of a merged member.
#[test]
fn ends_that_are_refused() {
    let table = two_lot::table();
    for port in 0..4 {
        let entries = vec![Entry::message(3, port, 4), Entry::member_mark(3, 3), Entry::member_mark(3, 5)];
        let state = State { next: 7, entries }.words();
        let commit = preview(&table, &state, &Move::commit(3).words());
        if port < 2 {
            gives(commit, [1, 7, 3, 2]);
        } else {
            refused(commit, 10);
        }
        refused(preview(&table, &state, &Move::abort(3).words()), 10);
        for id in [1, 2, 4, 5, 6, 7, 65_535] {
            refused(preview(&table, &state, &Move::commit(id).words()), 9);
            refused(preview(&table, &state, &Move::abort(id).words()), 9);
        }
    }
}

// Catches a next id that does not grow with a begin or grows with another move, and the id of a global rule
// that takes its message beside transactions: also for the last id, and where none is left.
#[test]
fn the_next_id() {
    let table = every_rule().words();
    let entries = vec![
        Entry::message(0, 0, 5),
        Entry::member_mark(1, 1),
        Entry::message(1, 1, 5),
        Entry::message(1, 2, 5),
        Entry::member_mark(2, 2),
        Entry::message(2, 2, 5),
        Entry::member_mark(3, 3),
        Entry::member_mark(4, 4),
        Entry::abort_mark(4),
    ];
    for next in [5, 6, 40, 65_534, 65_535, 65_536] {
        let state = State { next, entries: entries.clone() }.words();
        let begin = preview(&table, &state, &react(0, &[0]));
        if next < 65_536 {
            reacts(begin, [13, next + 1, next]);
        } else {
            refused(begin, 11);
        }
        reacts(preview(&table, &state, &react(6, &[0])), [9, next, 0]);
        reacts(preview(&table, &state, &react(1, &[2])), [9, next, 1]);
        reacts(preview(&table, &state, &react(3, &[5, 3])), [8, next, 1]);
        gives(preview(&table, &state, &Move::commit(3).words()), [8, next, 3, 1]);
        gives(preview(&table, &state, &Move::abort(4).words()), [7, next, 4, 1]);
    }
}

// Catches a count of entries that is off by one, or a limit that is: every number of consumes and products of
// a rule, on states that are nearly full.
#[test]
fn room_for_the_products() {
    for consumes in 1..=4 {
        for products in 0..=16 - consumes {
            let rule = |port: u32, made: Atom| [vec![Atom::consume(port); consumes], vec![made; products]].concat();
            let [global, local] = [0, 1].map(|port| rule(port, Atom::constant(role::EMIT, 0, 1)));
            let mut begin = rule(0, Atom::constant(role::BODY, 0, 1));
            if products > 0 {
                begin[consumes] = Atom::BEGIN;
            }
            let table = Table { global: 1, local: 1, merge: 0, rules: vec![global, local, begin] }.words();
            for n in [1_013, 1_020, 1_021, 1_022, 1_023, 1_024] {
                let mut entries = vec![Entry::message(0, 0, 1); n - 5];
                entries.extend([Entry::message(3, 1, 2); 4]);
                entries.push(Entry::member_mark(3, 3));
                let (last, after) = (n as u32 - 1, (n - consumes + products) as u32);
                let state = State { next: 7, entries }.words();
                let begins = products > 0;
                for (rule, pick, next, id) in
                    [(0, 700, 7, 0), (1, last - 1, 7, 3), (2, 700, 7 + u32::from(begins), if begins { 7 } else { 0 })]
                {
                    let picks: Vec<u32> = (0..consumes as u32).map(|level| pick - level).collect();
                    let preview = preview(&table, &state, &react(rule, &picks));
                    if after <= 1_024 {
                        reacts(preview, [after, next, id]);
                    } else {
                        refused(preview, 12);
                    }
                }
            }
        }
    }
}

// Catches a wrong range of kinds, rules or ids, a used "unused" pick, and a wrong length.
#[test]
fn words_of_a_move() {
    let (table, state) = (two_lot::table(), after_a(2));
    for (words, number) in wrong_words() {
        refused(preview(&table, &state, &words), number);
    }
    for words in any_words(&mut Random::new(1_002)) {
        let preview = preview(&table, &state, &words);
        assert!(words.len() == 5 || preview == Preview::refused(5));
    }
}

// Catches refusals in another order than 02's: that of the move without 6.
#[test]
fn the_first_fault_counts() {
    assert!(order::MOVE.into_iter().filter(|&number| number != 6).eq(order::PREVIEW));
    first_fault_counts(&order::PREVIEW, |[table, state, mv], _| preview(table, state, mv).number);
}

// Catches any difference on states and moves of all kinds, an id that is not 02's, and members that are not the marks
// of the transaction in the state's words.
#[test]
fn random_moves() {
    let mut random = Random::new(1_003);
    let mut coverage = Coverage::default();
    let mut numbers = [0; 19];
    for round in 0..30_000 {
        let (table, state, words) = asked(&mut random, round);
        let preview = preview(&table.words(), &state.words(), &words);
        numbers[preview.number as usize] += 1;
        if preview.number == 0 {
            let mv = Move::from_words(&words).unwrap();
            let shown = (preview.id, preview.members);
            let expected = (concerned(&table, &state, &mv), marks_removed(&state.words(), &words));
            assert_eq!(shown, expected, "{mv:?} of {table:?} {state:?}");
            coverage.add(met(&table, &state, &mv, preview.entries as usize));
        }
    }
    coverage.has_all(40);
    for number in [0, 5, 7, 8, 9, 10, 11, 12, 18] {
        assert!(numbers[number] > 100, "{number}: {numbers:?}");
    }
}

/// A small state: any, or one of two transactions beside a global message, or with an abort mark in one of them.
fn small_state(random: &mut Random, round: usize, table: &Table) -> State {
    if round % 4 > 1 {
        return state(random, table, 4, true);
    }
    let mut entries = [1, 2].map(|id| Entry::message(id, random.below(table.ports()), 5)).to_vec();
    entries.extend([Entry::member_mark(1, 1), Entry::member_mark(2, 2)]);
    let global = Entry::message(0, random.below(table.global), 5);
    entries.push(random.pick(&[Entry::abort_mark(1), global]));
    State { next: random.pick(&[3, 65_536]), entries }
}

// Catches a choice of picks that the random moves leave out: on small states every rule and one past the last,
// and both ends of each id that owns something and of some others, with every choice of four picks up to one past
// the last entry. The model has no time for so many.
#[test]
fn every_move_of_small_states() {
    let mut random = Random::new(1_004);
    let mut numbers = [0; 19];
    for round in 0..160 {
        let table = table(&mut random, if round % 2 == 0 { Shape::EveryClass } else { Shape::Small });
        let state = small_state(&mut random, round, &table);
        let (n, rules) = (state.entries.len() as u32, table.rules.len() as u32);
        let ids: BTreeSet<u32> = state.entries.iter().map(|entry| entry.owner).chain([1, 2, 65_535, 65_536]).collect();
        let heads = (0..=rules).chain(ids.iter().flat_map(|id| [1 << 24 | id, 2 << 24 | id])).chain([3 << 24]);
        let (table, state) = (table.words(), state.words());
        for head in heads {
            for picks in 0..(n + 1).pow(4) {
                let pick = |level: u32| picks / (n + 1).pow(level) % (n + 1);
                let mv = [head, pick(3), pick(2), pick(1), pick(0)];
                let preview = library::preview(&table, &state, &mv);
                assert_eq!(preview, plain::preview(&table, &state, &mv), "{mv:x?} of {table:x?} {state:x?}");
                let mut target = [0; 2_050];
                let answer = library::make_move(&table, &state, &mv, &mut target);
                let made = [answer.number(), target[0], target[1], answer.members()];
                let Preview { number, entries, next, members, .. } = preview;
                assert_eq!([number, entries, next, members], made, "{mv:x?} of {table:x?} {state:x?}");
                numbers[preview.number as usize] += 1;
            }
        }
    }
    for number in [0, 5, 7, 8, 9, 10, 11, 18] {
        assert!(numbers[number] > 10, "{number}: {numbers:?}");
    }
}

// Catches a table or state that passes here though its check refuses it: each of the faults with a move that
// may have one too.
#[test]
fn damaged_tables_and_states() {
    let mut random = Random::new(1_005);
    let mut planted = [0; 5];
    for round in 0..6_000 {
        let (table, state, mv) = asked(&mut random, round);
        let mv = if round % 2 == 0 { mv } else { changed(&mut random, &table, &state)[..random.index(6)].to_vec() };
        let (table_fault, state_fault) = (random.pick(TableFault::ALL), random.pick(StateFault::ALL));
        let bad_state = state_fault.plant(&mut random, &table, &state);
        if let Some(bad_state) = &bad_state {
            refused(preview(&table.words(), bad_state, &mv), state_fault.number());
            planted[state_fault.number() as usize] += 1;
        }
        if let Some(bad_table) = table_fault.plant(&mut random, &table) {
            refused(preview(&bad_table, &bad_state.unwrap_or(state.words()), &mv), table_fault.number());
            planted[table_fault.number() as usize] += 1;
        }
    }
    assert!(planted[1..].iter().all(|&count| count > 400), "{planted:?}");
}

// Catches a trap on noise in any part.
#[test]
fn noise_gets_one_answer() {
    let mut random = Random::new(1_006);
    let mut numbers = [0; 19];
    for _ in 0..10_000 {
        let [table, state, mv] = noise(&mut random);
        numbers[preview(&table, &state, &mv).number as usize] += 1;
    }
    for number in [0, 1, 2, 3, 4, 5, 7] {
        assert!(numbers[number] > 100, "{number}: {numbers:?}");
    }
    for ([table, state, mv], number) in long_noise(&mut random).into_iter().zip([1, 3, 5]) {
        refused(preview(&table, &state, &mv), number);
    }
}
