//! The tally beside a run: what it counts, and when it is written. Every run that a test asks through
//! `common` asks this of all implementations and of C, with garbage handed in; here are the cases, and the history of moves beside it.
mod common;

use std::collections::BTreeSet;
use std::ops::Range;

use common::{garbage, mark_owners, marks_removed, on_tally, tallied};
use harness::answer::Tally;
use harness::generate::coverage::Coverage;
use harness::generate::logs::{accepted, broken_off};
use harness::generate::states::state;
use harness::generate::tables::{table, Shape};
use harness::random::Random;
use harness::two_lot::{self, case_a, case_c, case_d, serial_d, TALLY_A, TALLY_C, TALLY_D};
use harness::words::{act, log_words, role, Atom, Entry, Move, State, Table};

/// Tallies that a caller may hand in.
const HANDED_IN: [Tally; 5] = [[0; 4], [u32::MAX; 4], [7, 8, 9, u32::MAX], [1, 0, 0, 0], TALLY_A];

/// Accepted, with this tally, whatever is handed in.
#[track_caller]
fn counts(table: &[u32], state: &[u32], log: &[Move], tally: Tally) {
    for handed_in in HANDED_IN {
        let (answer, _, found) = on_tally([table, state, &log_words(log)], handed_in, 2_050);
        assert_eq!((answer.number(), found), (0, tally), "{handed_in:?}");
    }
}

/// Refused with this number, with every tally left as it is handed in.
#[track_caller]
fn leaves(lists: [&[u32]; 3], room: usize, number: u32) {
    for handed_in in HANDED_IN {
        let (answer, _, found) = on_tally(lists, handed_in, room);
        assert_eq!((answer.number(), found), (number, handed_in));
    }
}

// Catches figures that are swapped, and an end that is counted as one transaction: 01's logs, whole and move by move.
#[test]
fn tallies_of_a_c_and_d() {
    let (table, start) = (two_lot::table(), two_lot::start());
    for (log, tally) in [(case_a(), TALLY_A), (case_c(), TALLY_C), (case_d(), TALLY_D), (serial_d(), TALLY_D)] {
        counts(&table, &start, &log, tally);
    }
    // The first five moves of (a) and (d) begin two and end none, or one.
    for moves in 0..=5 {
        let begun = moves.min(2);
        counts(&table, &start, &case_a()[..moves as usize], [moves, begun, 0, 0]);
        counts(&table, &start, &case_d()[..moves as usize], [moves, begun, 0, u32::from(moves == 5)]);
    }
    // What is open after two moves of (a) is not begun again.
    let (_, after_two, _) = tallied(&table, &start, &log_words(&case_a()[..2]));
    counts(&table, &after_two, &case_a()[2..], [4, 0, 2, 0]);
}

// Catches a run without moves that leaves the tally, or a figure of it.
#[test]
fn a_run_without_moves_counts_nothing() {
    counts(&two_lot::table(), &two_lot::start(), &[], [0; 4]);
    counts(&two_lot::table(), &[0, 65_536], &[], [0; 4]);
    counts(&two_lot::table(), &two_lot::END_C, &[], [0; 4]);
}

/// A begin, a merge of four that frees one message, a merge of four that asks for an abort, and a global rule.
fn merging_four() -> Table {
    let rule = |port, count: usize, made: &[Atom]| [&vec![Atom::consume(port); count], made].concat();
    let rules = vec![
        rule(0, 1, &[Atom::BEGIN, Atom::received(role::BODY, 1, 0)]),
        rule(1, 4, &[Atom::constant(role::EMIT, 0, 5)]),
        rule(1, 4, &[Atom::ABORT]),
        rule(0, 1, &[Atom::received(role::EMIT, 0, 0)]),
    ];
    Table { global: 1, local: 0, merge: 1, rules }
}

// Catches transactions that are counted for members: four begin, merge into one and end at once.
#[test]
fn four_merged_members() {
    let table = merging_four().words();
    let start = State { next: 1, entries: (1..=4).map(|value| Entry::message(0, 0, value)).collect() }.words();
    for (rule, end, tally) in [(1, Move::commit(1), [6, 4, 4, 0]), (2, Move::abort(1), [6, 4, 0, 4])] {
        let mut log = vec![Move::react(0, &[0]); 4];
        log.push(Move::react(rule, &[7, 1, 5, 3]));
        counts(&table, &start, &log, [5, 4, 0, 0]);
        log.push(end);
        counts(&table, &start, &log, tally);
    }
}

// Catches members that were open at the start and are not counted when they end, or as begun; and figures in another
// order: all four differ.
#[test]
fn members_open_at_the_start() {
    let table = merging_four().words();
    // Transaction 3 has four members and 2 one.
    let marks = [(3, 5), (3, 3), (2, 2), (3, 8), (3, 7)].map(|(owner, id)| Entry::member_mark(owner, id));
    let four = State { next: 9, entries: [&marks[..], &[Entry::message(0, 0, 1)]].concat() }.words();
    counts(&table, &four, &[Move::commit(2), Move::commit(3)], [2, 0, 5, 0]);
    counts(&table, &four, &[Move::commit(3)], [1, 0, 4, 0]);
    counts(&table, &four, &[Move::react(3, &[5])], [1, 0, 0, 0]);
    leaves([&table, &four, &log_words(&[Move::commit(3), Move::commit(3)])], 2_050, 16);
    // Transaction 2 has three members, 5 has five and an abort mark.
    let marks = |owner: u32, ids: Range<u32>| ids.map(move |id| Entry::member_mark(owner, id));
    let mut entries: Vec<Entry> = marks(2, 2..5).chain(marks(5, 5..10)).collect();
    entries.push(Entry::abort_mark(5));
    entries.extend([1, 2].map(|value| Entry::message(0, 0, value)));
    let start = State { next: 10, entries }.words();
    let before = [Move::react(3, &[9]), Move::react(3, &[9]), Move::react(0, &[9]), Move::react(0, &[9])];
    counts(&table, &start, &before, [4, 2, 0, 0]);
    counts(&table, &start, &[&before[..], &[Move::abort(5), Move::commit(2)]].concat(), [6, 2, 3, 5]);
}

// Catches a refusal that clears the tally, writes what was counted up to it, or counts the refused move: each number,
// where the run would end members, with a refused move in every place, and behind all that ended.
#[test]
fn a_refused_run_leaves_the_tally() {
    let (table, start) = (two_lot::table(), two_lot::start());
    let with = |words: &[u32], at: usize, word: u32| {
        let mut words = words.to_vec();
        words[at] = word;
        words
    };
    for log in [case_a(), case_d()] {
        let words = log_words(&log);
        leaves([&table[1..], &start, &words], 2_050, 1);
        leaves([&with(&table, 28, 0x6000_0000), &start, &words], 2_050, 2);
        leaves([&table, &with(&start, 1, 0), &words], 2_050, 3);
        leaves([&table, &with(&start, 5, 0x0400_0000), &words], 2_050, 4);
        leaves([&table, &start, &words[1..]], 2_050, 13);
        leaves([&table, &start, &words], 2_049, 6);
        leaves([&table, &start, &[]], 2_050, 13);
        leaves([&[], &[], &[]], 0, 1);
        for place in 0..=log.len() {
            let mut log = log.clone();
            log.insert(place, Move::commit(9));
            leaves([&table, &start, &log_words(&log)], 2_050, 16);
        }
    }
}

// Catches a tally that is added to, or that a refused run between two others changes: one caller's tally, handed to
// one run after another.
#[test]
fn runs_are_not_added_up() {
    let (table, start) = (two_lot::table(), two_lot::start());
    let refused = [&case_a()[..], &[Move::commit(1)]].concat();
    let runs = [
        (case_a(), TALLY_A),
        (case_a(), TALLY_A),
        (case_d(), TALLY_D),
        (refused.clone(), TALLY_D),
        (case_c(), TALLY_C),
        (vec![], [0; 4]),
        (refused, [0; 4]),
        (case_d(), TALLY_D),
    ];
    let mut tally = [u32::MAX; 4];
    for (log, expected) in runs {
        (_, _, tally) = on_tally([&table, &start, &log_words(&log)], tally, 2_050);
        assert_eq!(tally, expected, "{log:?}");
    }
}

/// The accepted moves of a log, each with the words of the state before it: no figure stands in it.
struct History<'a> {
    table: &'a Table,
    moves: Vec<(Move, Vec<u32>)>,
}

impl History<'_> {
    fn begun(&self) -> u32 {
        let begins = |mv: &Move| mv.kind == act::REACT && self.table.rules[mv.number as usize].contains(&Atom::BEGIN);
        self.moves.iter().filter(|(mv, _)| begins(mv)).count() as u32
    }

    /// The member marks that commits, or aborts, removed.
    fn ended(&self, kind: u32) -> u32 {
        let ends = self.moves.iter().filter(|(mv, _)| mv.kind == kind);
        ends.map(|(mv, before)| marks_removed(before, &mv.words())).sum()
    }

    fn tally(&self) -> Tally {
        [self.moves.len() as u32, self.begun(), self.ended(act::COMMIT), self.ended(act::ABORT)]
    }
}

/// Every prefix of a log, run by itself; moves from `refused` on are not reached. The history of all that was made.
fn every_prefix<'a>(table: &'a Table, start: &State, log: &[Move], refused: usize) -> History<'a> {
    let (table_words, start) = (table.words(), start.words());
    let marks = |state: &[u32]| mark_owners(state).count() as u32;
    let mut history = History { table, moves: Vec::new() };
    let mut before = start.clone();
    for moves in 0..=log.len() {
        let prefix = log_words(&log[..moves]);
        let lists = [&table_words[..], &start, &prefix];
        let handed_in = garbage(lists, 2_050);
        let (answer, words, tally) = on_tally(lists, handed_in, 2_050);
        if moves > refused {
            assert_eq!((answer.number(), tally), (16, handed_in));
            continue;
        }
        if let Some(last) = moves.checked_sub(1) {
            history.moves.push((log[last], before));
        }
        assert_eq!((answer.number(), tally), (0, history.tally()), "{moves} of {log:?} on {start:x?}");
        let ended = history.ended(act::COMMIT) + history.ended(act::ABORT);
        assert_eq!(marks(&start) + history.begun(), ended + marks(&words), "{moves} of {log:?}");
        before = words;
    }
    history
}

/// A log, and how many of its moves are accepted: all, or those before a reaction beside an abort mark or, where none was
/// met, before an end of no transaction.
fn any_log(random: &mut Random, table: &Table, start: &State, breaks: bool) -> (Vec<Move>, usize) {
    let mut log = accepted(random, table, start, 25);
    let moves = log.len();
    if !breaks {
        return (log, moves);
    }
    broken_off(random, table, start, 25).unwrap_or_else(|| {
        let at = random.index(moves + 1);
        log.insert(at, Move::commit(0));
        (log, at)
    })
}

// Catches a figure that is not the history's, a move that changes one which it does not concern, and marks that come
// or go uncounted, after every prefix of random logs, also of such that break off.
#[test]
fn every_prefix_is_counted_by_its_history() {
    let mut random = Random::new(411);
    let mut coverage = Coverage::default();
    for round in 0..600 {
        let shape = random.pick(&[Shape::Small, Shape::Closable, Shape::EveryClass]);
        let table = table(&mut random, shape);
        let start = state(&mut random, &table, 30, round % 4 != 0);
        let (log, refused) = any_log(&mut random, &table, &start, round % 2 == 0);
        let history = every_prefix(&table, &start, &log, refused);
        let [moves, begun, committed, aborted] = history.tally();
        let ends = |kind: u32| history.moves.iter().filter(|(mv, _)| mv.kind == kind).count() as u32;
        let breaks = refused < log.len();
        coverage.add([
            ("broken off", breaks),
            ("broken off after an end", breaks && committed + aborted > 0),
            ("several begun", begun > 1),
            ("reactions without begin", moves > begun + ends(act::COMMIT) + ends(act::ABORT)),
            ("several commits", ends(act::COMMIT) > 1),
            ("several aborts", ends(act::ABORT) > 1),
            ("more committed than commits", committed > ends(act::COMMIT)),
            ("more aborted than aborts", aborted > ends(act::ABORT)),
            ("both", committed > 0 && aborted > 0),
            ("ended that did not begin", committed + aborted > begun),
            ("still open", committed + aborted < begun),
        ]);
    }
    coverage.has_all(20);
}

// Catches a tally that depends on what is handed in, where a caller hands on what the run before left.
#[test]
fn random_runs_one_after_another() {
    let mut random = Random::new(412);
    let mut coverage = Coverage::default();
    let mut tally = [u32::MAX; 4];
    for round in 0..1_500 {
        let table = table(&mut random, if round % 2 == 0 { Shape::EveryClass } else { Shape::Closable });
        let start = state(&mut random, &table, 30, true);
        let moves = random.index(20);
        let mut log = accepted(&mut random, &table, &start, moves);
        if round % 3 == 0 {
            // An id that names nothing.
            log.push(Move::commit(start.next + moves as u32));
        }
        let (table, start, log) = (table.words(), start.words(), log_words(&log));
        let before = tally;
        let answer;
        (answer, _, tally) = on_tally([&table, &start, &log], before, 2_050);
        let number = answer.number();
        let (_, _, other) = tallied(&table, &start, &log);
        assert_eq!(tally, if number == 0 { other } else { before });
        coverage.add([("accepted", number == 0 && before != tally), ("refused", number == 16 && before != [0; 4])]);
        coverage.add([("a figure falls", number == 0 && (0..4).any(|at| tally[at] < before[at]))]);
    }
    coverage.has_all(100);
}

/// A begin with the message inside, and one with it put aside and an abort mark.
fn beginning() -> Table {
    let begin = |made: &[Atom]| [&[Atom::consume(0), Atom::BEGIN], made].concat();
    let rules =
        vec![begin(&[Atom::received(role::BODY, 0, 0)]), begin(&[Atom::received(role::COMPENSATE, 0, 0), Atom::ABORT])];
    Table { global: 1, local: 0, merge: 0, rules }
}

// Catches a figure that is cut short: more members than a state has entries, committed or aborted, first many at once
// and then one after another.
#[test]
fn figures_above_1024() {
    let table = beginning().words();
    for (rule, end, marks, tally) in [
        (0, Move::commit as fn(u32) -> Move, 1_023, [1_023, 511, 1_534, 0]),
        (1, Move::abort, 1_022, [1_023, 511, 0, 1_533]),
    ] {
        let mut entries: Vec<Entry> = (1..=marks).map(|id| Entry::member_mark(1, id)).collect();
        if rule == 1 {
            entries.push(Entry::abort_mark(1));
        }
        entries.push(Entry::message(0, 0, 7));
        assert_eq!(entries.len(), 1_024);
        let start = State { next: marks + 1, entries }.words();
        let one = |id: u32| [Move::react(rule, &[0]), end(id)];
        let log: Vec<Move> = [end(1)].into_iter().chain((marks + 1..marks + 512).flat_map(one)).collect();
        counts(&table, &start, &log, tally);
        let mut longest = log;
        longest.push(Move::react(rule, &[0]));
        let [_, begun, committed, aborted] = tally;
        counts(&table, &start, &longest, [1_024, begun + 1, committed, aborted]);
        longest.push(Move::react(rule, &[0]));
        leaves([&table, &start, &log_words(&longest)], 2_050, 13);
    }
}

// Catches a limit that only full states and the longest logs meet: 1,024 of each figure, up to the last id.
#[test]
fn full_states_and_longest_logs() {
    let none = Table { global: 1, local: 0, merge: 0, rules: vec![vec![Atom::consume(0), Atom::BEGIN]] };
    let table = none.words();
    let messages = |next: u32, n: usize| State { next, entries: vec![Entry::message(0, 0, 7); n] }.words();
    // The last begin gets id 65,535.
    let begins = vec![Move::react(0, &[0]); 1_024];
    counts(&table, &messages(64_512, 1_024), &begins, [1_024, 1_024, 0, 0]);
    leaves([&table, &messages(64_513, 1_024), &log_words(&begins)], 2_050, 16);
    // 1,024 members of one transaction, and of as many.
    let marks = |owner: fn(u32) -> u32| State {
        next: 1_025,
        entries: (1..=1_024).map(|id| Entry::member_mark(owner(id), id)).collect(),
    };
    counts(&table, &marks(|_| 1).words(), &[Move::commit(1)], [1, 0, 1_024, 0]);
    let commits: Vec<Move> = (1..=1_024).map(Move::commit).collect();
    counts(&table, &marks(|id| id).words(), &commits, [1_024, 0, 1_024, 0]);
    // Half of the entries are abort marks.
    let marked = |id: u32| [Entry::member_mark(id, id), Entry::abort_mark(id)];
    let start = State { next: 513, entries: (1..=512).flat_map(marked).collect() }.words();
    let aborts: Vec<Move> = (1..=512).rev().map(Move::abort).collect();
    counts(&table, &start, &aborts, [512, 0, 0, 512]);
    leaves([&table, &start, &log_words(&[&aborts[..], &aborts[..1]].concat())], 2_050, 16);
}

// Catches a tally that is always handed in the same, so that a test sees no difference.
#[test]
fn what_is_handed_in_is_garbage() {
    let tallies: Vec<Tally> = (0..300).map(|word| garbage([&two_lot::table(), &[word], &[0]], 2_050)).collect();
    let full = tallies.iter().filter(|&&tally| tally == [u32::MAX; 4]).count();
    let distinct: BTreeSet<&Tally> = tallies.iter().collect();
    assert!((60..150).contains(&full) && distinct.len() > 150, "{full} {}", distinct.len());
}
