//! Unattended running: all implementations on right, damaged and random input. Every run that is asked through `common`
//! is held to its own log: a run accepts it, and the list of the state that this leaves says whether it is still.
mod common;

use common::{after, after_a, ask_faulty, fault_sets, faulty_plant, noisy, Alone};
use harness::answer::{order, Answer, Unattended};
use harness::generate::coverage::Coverage;
use harness::generate::plants::PLANTS;
use harness::generate::unattended::{plant, Step};
use harness::generate::workloads::{fours, spread};
use harness::library;
use harness::random::Random;
use harness::two_lot::{self, case_a, case_c, case_d};
use harness::words::{
    act, kind, log_from_words, log_target, log_words, role, Atom, Entry, Move, State, Table, MAX_NEXT, STATE_TARGET,
};

/// The budgets on both sides of each border.
const BUDGETS: [u32; 10] = [0, 1, 5, 6, 7, 255, 256, 1_022, 1_023, 1_024];
/// Budgets that are too large, also where they are cut to fewer bits or read with a sign.
const TOO_LARGE: [u32; 9] = [1_025, 1_026, 2_048, 65_535, 65_536, 65_541, 1 << 31, u32::MAX - 1_024, u32::MAX];

/// A run with this log, after which nothing is enabled or something is.
#[track_caller]
fn gives((alone, words): (Unattended, Vec<u32>), log: &[Move], still: bool) {
    let expected = log_words(log);
    let (moves, answer) = (log.len() as u32, Answer::Accepted(expected.len() as u32));
    assert_eq!((alone, words), (Unattended { answer, moves, still }, expected));
}

#[track_caller]
fn refused(result: (Unattended, Vec<u32>), number: u32) {
    assert_eq!(result, (Unattended::refused(number), vec![]));
}

/// The state that a log leaves, by single moves of the library and by its run, which give the same.
fn reached(table: &[u32], state: &[u32], log: &[Move]) -> Vec<u32> {
    let mut target = [0; STATE_TARGET];
    let ran = library::run(table, state, &log_words(log), &mut [0; 4], &mut target);
    assert_eq!(ran.number(), 0, "{log:?}");
    let one_by_one = log.iter().fold(state.to_vec(), |state, mv| {
        let mut target = [0; STATE_TARGET];
        let made = library::make_move(table, &state, &mv.words(), &mut target);
        assert_eq!(made.number(), 0, "{mv:?}");
        target[..made.words() as usize].to_vec()
    });
    assert_eq!(target[..ran.words() as usize], one_by_one, "{log:?}");
    one_by_one
}

/// The first move of the library's list.
fn first_of_list(table: &[u32], state: &[u32]) -> Option<Move> {
    let mut target = [0; 5];
    let page = library::list_moves(table, state, 0, 1, &mut target);
    (page.length > 0).then(|| Move::from_words(&target).unwrap())
}

// Catches a run that makes no move, another than the first, or one beyond its budget, and one that is spent where the
// last move of the budget leaves nothing to do: log (a), from each of its states, with every budget.
#[test]
fn the_two_lot_plant_makes_log_a() {
    let (table, a) = (two_lot::table(), case_a());
    for done in 0..=a.len() {
        for budget in BUDGETS.into_iter().chain(2..5) {
            let left = &a[done..];
            let made = left.len().min(budget as usize);
            gives(Alone::new(budget).of(&table, &after_a(done)), &left[..made], made == left.len());
        }
    }
}

// Catches one that goes on with the plan of another log: the plant alone from each state of (c) and (d).
#[test]
fn the_two_lot_plant_in_other_states() {
    let table = two_lot::table();
    let both_again = [&case_a()[..2], &[Move::react(1, &[1]), Move::react(1, &[3]), Move::react(2, &[4, 5])]].concat();
    // After (c) message 9 begins again and merges with what waits in transaction 1.
    let c = [Move::react(0, &[2]), Move::react(1, &[4]), Move::react(2, &[2, 5]), Move::commit(1)];
    gives(Alone::new(9).of(&table, &after(&case_c())), &c, true);
    gives(Alone::new(1).of(&table, &after(&case_c()[..4])), &[Move::abort(2)], false);
    // After (d) all begins again, under ids 3 and 4.
    let d = [&both_again[..], &[Move::commit(3)]].concat();
    gives(Alone::new(1_024).of(&table, &after(&case_d())), &d, true);
    gives(Alone::new(5).of(&table, &after(&case_d())), &both_again, false);
    gives(Alone::new(1_024).of(&table, &two_lot::aborting()), &[&[Move::abort(2)], &c[..]].concat(), true);
}

/// One message for another, for ever: the first of them each time.
fn turning(n: usize) -> [Vec<u32>; 2] {
    let rule = vec![Atom::consume(0), Atom::received(role::EMIT, 0, 0)];
    let table = Table { global: 1, local: 0, merge: 0, rules: vec![rule] };
    let entries = (0..n as u32).map(|value| Entry::message(0, 0, value)).collect();
    [table.words(), State { next: 1, entries }.words()]
}

/// A message that is taken in each move: as many moves as messages, each of which picks place 0.
fn taking(n: usize) -> [Vec<u32>; 2] {
    let table = Table { global: 1, local: 0, merge: 0, rules: vec![vec![Atom::consume(0)]] };
    [table.words(), State { next: 1, entries: vec![Entry::message(0, 0, 7); n] }.words()]
}

// Catches a budget that is not kept, and 'still' and 'spent' mixed up: a plant that goes on for ever, and plants that
// come to rest before, at and behind the budget.
#[test]
fn still_and_spent() {
    let [table, state] = turning(3);
    for budget in BUDGETS {
        gives(Alone::new(budget).of(&table, &state), &vec![Move::react(0, &[0]); budget as usize], false);
    }
    for n in [0, 1, 2, 5, 6, 255, 256, 1_022, 1_023, 1_024] {
        let [table, state] = taking(n);
        for budget in BUDGETS {
            let made = n.min(budget as usize);
            gives(Alone::new(budget).of(&table, &state), &vec![Move::react(0, &[0]); made], made == n);
        }
    }
}

// Catches a plant at rest that is moved or called spent: nothing there, no rules, nothing that fits, a transaction that
// cannot end.
#[test]
fn a_plant_at_rest_stays_so() {
    let none = Table { global: 1, local: 1, merge: 1, rules: vec![] }.words();
    let unfinished = State { next: 2, entries: vec![Entry::member_mark(1, 1), Entry::message(1, 3, 5)] }.words();
    let cases = [
        (&two_lot::table(), vec![0, 1]),
        (&two_lot::table(), vec![0, 65_536]),
        (&two_lot::table(), two_lot::END_A.to_vec()),
        (&two_lot::table(), unfinished),
        (&two_lot::table(), State { next: 1, entries: vec![Entry::message(0, 1, 5); 1_024] }.words()),
        (&none, State { next: 9, entries: vec![Entry::message(0, 0, 5); 1_024] }.words()),
    ];
    for (table, state) in cases {
        for budget in BUDGETS {
            gives(Alone::new(budget).of(table, &state), &[], true);
        }
    }
}

// Catches a target that is asked for too much or too little, also where few moves or none are made, one that is written
// on 6, and words behind the log that are touched.
#[test]
fn targets_by_the_budget() {
    for [table, state] in [turning(2), taking(0), taking(3), taking(7)] {
        let n = state[0] as usize;
        for budget in BUDGETS.into_iter().chain(2..5) {
            let want = log_target(budget as usize);
            let most = if table == turning(2)[0] { budget as usize } else { n.min(budget as usize) };
            let made = log_target(most);
            for room in [0, 1, 2, made - 1, made, want - 1, want, want + 1, want + 5, 6_000] {
                let alone = Alone { budget, room }.of(&table, &state);
                if room < want {
                    refused(alone, 6);
                } else {
                    let still = table != turning(2)[0] && most == n;
                    gives(alone, &vec![Move::react(0, &[0]); most], still);
                }
            }
        }
    }
}

// Catches a budget over its limit that is read as the limit, cut to fewer bits, or found out too late: with targets
// that are long enough for what would be made, or too short.
#[test]
fn budgets_over_the_limit() {
    for [table, state] in [turning(2), taking(0), taking(3)] {
        for budget in TOO_LARGE {
            for room in [0, 1, 26, 5_120, 5_121, 5_126, 12_000] {
                refused(Alone { budget, room }.of(&table, &state), 19);
            }
        }
    }
}

// Catches refusals in another order: every set of faults, so each alone and each pair too.
#[test]
fn the_first_fault_counts() {
    for faults in fault_sets(&order::RUN_UNATTENDED) {
        let has = |number| faults.contains(&number);
        let [table, state] = faulty_plant(&faults);
        for budget in if has(19) { &TOO_LARGE[..] } else { &BUDGETS[..] } {
            let enough = log_target((*budget as usize).min(1_024));
            let rooms = if has(6) { [enough - 1, 0] } else { [enough, enough + 1] };
            for room in rooms {
                let alone = Alone { budget: *budget, room }.of(&table, &state);
                match faults.first() {
                    Some(&number) => refused(alone, number),
                    None => gives(alone, &case_a()[..6.min(*budget as usize)], *budget >= 6),
                }
            }
        }
    }
}

// Catches a table or state that passes here though its check refuses it, and one that is run anyway.
#[test]
fn damaged_tables_and_states() {
    let mut random = Random::new(1_001);
    let mut planted = [0; 5];
    for round in 0..6_000 {
        let (table, state) = plant(&mut random, round);
        let budget = random.pick(&[0, 1, 5, 1_024, 1_025, u32::MAX]);
        let room = random.pick(&[0, 1, 26, 5_121]);
        let alone = Alone { budget, room };
        let ask = |table: &[u32], state: &[u32], number| refused(alone.of(table, state), number);
        ask_faulty(&mut random, &table, &state, &mut planted, ask);
    }
    assert!(planted[1..].iter().all(|&count| count > 400), "{planted:?}");
}

// Catches a trap on noise in any part.
#[test]
fn noise_gets_one_answer() {
    let mut random = Random::new(1_002);
    let mut numbers = [0; 20];
    for _ in 0..20_000 {
        let parts = noisy(&mut random);
        let (budget, room) = (random.edge_word(), random.pick(&[0, 1, 6, 26, 31, 5_120, 5_121, 5_122]));
        numbers[Alone { budget, room }.of(&parts[0], &parts[1]).0.answer.number() as usize] += 1;
    }
    for number in [0, 1, 2, 3, 4, 6, 19] {
        assert!(numbers[number] > 200, "{number}: {numbers:?}");
    }
    let long: Vec<u32> = (0..100_000).map(|_| random.word()).collect();
    refused(Alone::new(5).of(&long, &two_lot::start()), 1);
    refused(Alone::new(5).of(&two_lot::table(), &long), 3);
}

/// A state of these entries as it is, with the most entries that are few to the library (64: every candidate is tried,
/// and every transaction), and with more: messages in the plant are added behind the others, on port 0. No rule takes
/// from there, so every log is that of the state as it is.
fn filled(next: u32, entries: &[Entry]) -> [Vec<u32>; 5] {
    [entries.len(), 64, 65, 66, 200].map(|n| {
        let filler = vec![Entry::message(0, 0, 9); n - entries.len()];
        State { next, entries: [entries, &filler].concat() }.words()
    })
}

/// A rule that takes from these ports and makes one message on this one.
fn for_one(ports: &[u32], port: u32) -> Vec<Atom> {
    let takes = ports.iter().map(|&port| Atom::consume(port));
    takes.chain([Atom::constant(role::EMIT, port, 5)]).collect()
}

// Catches picks in two transactions, a rule that is left out since the first message's transaction has not all, and one
// that is made of messages which no single transaction has: two to four takes, in transactions that have all but one.
#[test]
fn local_rules_want_all_in_one_transaction() {
    for takes in [&[1, 2][..], &[1, 1], &[1, 2, 3], &[2, 1, 2], &[1, 1, 1], &[1, 2, 3, 1], &[2, 2, 1, 1], &[1, 1, 1, 1]]
    {
        let table = Table { global: 1, local: 3, merge: 1, rules: vec![for_one(takes, 4)] }.words();
        // Transactions 9, 8, 7 .. each lack another take.
        let mut entries: Vec<Entry> = Vec::new();
        for (lack, id) in (0..takes.len()).zip((1..=9).rev()) {
            entries.push(Entry::member_mark(id, id));
            let left = (0..takes.len()).filter(|&take| take != lack);
            entries.extend(left.map(|take| Entry::message(id, takes[take], 5)));
        }
        for state in filled(10, &entries) {
            gives(Alone::new(3).of(&table, &state), &[], true);
        }
        // Transaction 3 has all, behind the others and in another order.
        let behind = entries.len() as u32;
        entries.push(Entry::member_mark(3, 3));
        entries.extend(takes.iter().rev().map(|&port| Entry::message(3, port, 6)));
        let mut picks: Vec<u32> = Vec::new();
        for take in takes {
            let fits = |place: &u32| entries[*place as usize] == Entry::message(3, *take, 6) && !picks.contains(place);
            picks.push((behind..entries.len() as u32).find(fits).unwrap());
        }
        for state in filled(10, &entries) {
            gives(Alone::new(3).of(&table, &state), &[Move::react(0, &picks)], true);
            gives(Alone::new(0).of(&table, &state), &[], false);
        }
    }
}

/// All ways to write so many digits below `base`.
fn digits(base: u32, count: u32) -> impl Iterator<Item = Vec<u32>> {
    (0..base.pow(count)).map(move |number| (0..count).map(|at| number / base.pow(at) % base).collect())
}

// Catches a rule of any class that counts a message for two takes, or forgets one: takes of two ports, one to four of
// them, on up to four messages of either port in two transactions or the plant.
#[test]
fn takes_of_two_ports() {
    let mut moves = [0; 2];
    for class in 0..3 {
        for takes in (1..=4).flat_map(|count| digits(2, count)) {
            let port = |which: u32| 2 * class + which;
            let rule: Vec<Atom> = takes.iter().map(|&which| Atom::consume(port(which))).collect();
            let table = Table { global: 2, local: 2, merge: 2, rules: vec![rule] }.words();
            // Each digit is a message: its port and its transaction.
            for messages in (0..=4).flat_map(|count| digits(4, count)) {
                let owner = |message: u32| if class == 0 { 0 } else { 1 + message / 2 };
                let messages = messages.iter().map(|&message| Entry::message(owner(message), port(message % 2), 5));
                // What keeps the transactions from a commit is on a port that the rule does not take from.
                let other = if class == 2 { 2 } else { 5 };
                let beside = [1, 2].map(|id| [Entry::member_mark(id, id), Entry::message(id, other, 5)]);
                let entries: Vec<Entry> = messages.chain(beside.concat()).collect();
                let (alone, _) = Alone::new(9).of(&table, &State { next: 3, entries }.words());
                moves[usize::from(alone.moves > 0)] += 1;
            }
        }
    }
    assert!(moves.iter().all(|&count| count > 5_000), "{moves:?}");
}

// Catches ends by place instead of by id, aborts before commits, one of a transaction that is not ready, and one that
// is made though a reaction is enabled.
#[test]
fn ends_by_id_behind_reactions() {
    let marks = |ids: &[u32]| ids.iter().map(|&id| Entry::member_mark(id, id)).collect::<Vec<_>>();
    let commits = |ids: &[u32]| ids.iter().map(|&id| Move::commit(id)).collect::<Vec<_>>();
    let aborts = |ids: &[u32]| ids.iter().map(|&id| Move::abort(id)).collect::<Vec<_>>();
    let table = two_lot::table();
    let ids = [65_535, 3, 64, 1_000, 63, 1];
    let sorted = [1, 3, 63, 64, 1_000, 65_535];
    let mut state = State { next: MAX_NEXT, entries: marks(&ids) };
    gives(Alone::new(9).of(&table, &state.words()), &commits(&sorted), true);
    gives(Alone::new(6).of(&table, &state.words()), &commits(&sorted), true);
    gives(Alone::new(5).of(&table, &state.words()), &commits(&sorted[..5]), false);
    // Two cannot end.
    state.entries.extend([Entry::message(64, 3, 5), Entry::message(1, 3, 5)]);
    let merge = [Move::react(2, &[6, 7]), Move::commit(1)];
    gives(Alone::new(9).of(&table, &state.words()), &[&merge[..], &commits(&[3, 63, 1_000, 65_535])].concat(), true);
    state.entries.pop();
    gives(Alone::new(9).of(&table, &state.words()), &commits(&[1, 3, 63, 1_000, 65_535]), true);
    // Three have an abort mark, of which one would be committed otherwise and one is the smallest.
    state.entries.extend([64, 1, 1_000].map(Entry::abort_mark));
    let both = [commits(&[3, 63, 65_535]), aborts(&[1, 64, 1_000])].concat();
    for budget in 0..=7 {
        gives(Alone::new(budget).of(&table, &state.words()), &both[..6.min(budget as usize)], budget >= 6);
    }
    // What an abort gives back finds no id to begin with, since all are used up.
    state.entries.push(Entry::compensation(1, 0, 7));
    gives(Alone::new(9).of(&table, &state.words()), &both, true);
    let all_marked =
        State { next: 9, entries: [marks(&[5, 2, 7]), [7, 5, 2].map(Entry::abort_mark).to_vec()].concat() };
    gives(Alone::new(9).of(&table, &all_marked.words()), &aborts(&[2, 5, 7]), true);
}

// Catches a commit that is missed behind a lower transaction with a message inside or an abort mark, or is made of such
// a one, and an abort that is missed behind them: four transactions, each of them free, blocked, stopped or both.
#[test]
fn ends_behind_blocked_and_stopped() {
    let table = Table { global: 1, local: 1, merge: 0, rules: vec![] }.words();
    // By id, and with entries in another order; two ids share a remainder by 1,024.
    let ids = [3, 64, 1_027, 65_535];
    for fates in digits(4, 4) {
        let (blocked, stopped) = (|place: usize| fates[place] & 1 == 1, |place: usize| fates[place] & 2 == 2);
        let mut entries = Vec::new();
        for place in [2, 0, 3, 1] {
            let id = ids[place];
            // A message for the plant does not block.
            entries.extend([Entry::member_mark(id, id), Entry::message(id, 0, 5), Entry::compensation(id, 0, 6)]);
            entries.extend(blocked(place).then(|| Entry::message(id, 1, 5)));
            entries.extend(stopped(place).then(|| Entry::abort_mark(id)));
        }
        let free = (0..4).filter(|&place| !blocked(place) && !stopped(place)).map(|place| Move::commit(ids[place]));
        let aborts = (0..4).filter(|&place| stopped(place)).map(|place| Move::abort(ids[place]));
        let log: Vec<Move> = free.chain(aborts).collect();
        for state in filled(MAX_NEXT, &entries) {
            gives(Alone::new(9).of(&table, &state), &log, true);
        }
    }
}

// Catches an end that is made where a begin is enabled, or not made where none is: each abort gives back a message that
// begins again, with an abort mark inside.
#[test]
fn aborts_and_begins_in_turn() {
    let begin = vec![Atom::consume(0), Atom::BEGIN, Atom::received(role::COMPENSATE, 0, 0), Atom::ABORT];
    let table = Table { global: 1, local: 0, merge: 0, rules: vec![begin] }.words();
    let state = State { next: 65_531, entries: vec![Entry::message(0, 0, 7)] }.words();
    let turns: Vec<Move> = (65_531..65_536).flat_map(|id| [Move::react(0, &[0]), Move::abort(id)]).collect();
    for budget in 0..=12 {
        let made = turns.len().min(budget as usize);
        gives(Alone::new(budget).of(&table, &state), &turns[..made], made == turns.len());
    }
    // Both of two messages begin before the first abort.
    let two = State { next: 1, entries: vec![Entry::message(0, 0, 7), Entry::message(0, 0, 8)] }.words();
    let (alone, words) = Alone::new(1_024).of(&table, &two);
    assert_eq!((alone.moves, alone.still), (1_024, false));
    let log = log_from_words(&words).unwrap();
    assert_eq!(log[..4], [Move::react(0, &[0]), Move::react(0, &[0]), Move::abort(1), Move::react(0, &[0])]);
}

// Catches a limit that is passed, or met one too early: rules without room are passed over, and come again when a move
// makes room.
#[test]
fn full_plants() {
    let grow = |by: usize| [vec![Atom::consume(0)], vec![Atom::constant(role::EMIT, 0, 1); by + 1]].concat();
    let shrink = vec![Atom::consume(1), Atom::consume(1), Atom::constant(role::EMIT, 2, 1)];
    let table = Table { global: 3, local: 0, merge: 0, rules: vec![grow(2), grow(1), shrink] }.words();
    for (n, pairs) in [(1_024, 3), (1_023, 2), (1_022, 2), (1_020, 1), (1_017, 0)] {
        let mut entries = vec![Entry::message(0, 2, 9); n];
        entries[n / 2] = Entry::message(0, 0, 9);
        entries[3..3 + 2 * pairs].fill(Entry::message(0, 1, 9));
        let (alone, words) = Alone::new(30).of(&table, &State { next: 1, entries }.words());
        let log = log_from_words(&words).unwrap();
        // By two while there is room, then by one, then room is made.
        let rules: Vec<u32> = log.iter().map(|mv| mv.number).collect();
        let mut room = 1_024 - n;
        let mut left = pairs;
        let mut expected = Vec::new();
        loop {
            match (room, left) {
                (2.., _) => (room, expected) = (room - 2, [&expected[..], &[0]].concat()),
                (1, _) => (room, expected) = (room - 1, [&expected[..], &[1]].concat()),
                (0, 1..) => (room, left, expected) = (room + 1, left - 1, [&expected[..], &[2]].concat()),
                (0, 0) => break,
            }
        }
        assert_eq!((rules, alone.still), (expected, true), "{n} {pairs}");
    }
}

// Catches a begin without an id, or none where there is one: ids up to 65,535, then the next rule.
#[test]
fn last_ids() {
    let begin = vec![Atom::consume(0), Atom::BEGIN, Atom::constant(role::BODY, 0, 1)];
    let turn = vec![Atom::consume(0), Atom::constant(role::EMIT, 1, 1)];
    let table = Table { global: 2, local: 0, merge: 0, rules: vec![begin, turn] }.words();
    for ids in 0..4 {
        let start = State { next: MAX_NEXT - ids, entries: vec![Entry::message(0, 0, 7); 3] }.words();
        let begins = vec![Move::react(0, &[0]); ids as usize];
        let turns = vec![Move::react(1, &[0]); 3 - ids as usize];
        // What a commit frees is turned before the next commit.
        let freed = |id: u32| [Move::commit(id), Move::react(1, &[0])];
        let freed: Vec<Move> = (MAX_NEXT - ids..MAX_NEXT).flat_map(freed).collect();
        let (alone, words) = Alone::new(30).of(&table, &start);
        let log = log_from_words(&words).unwrap();
        assert_eq!((&log[..3], alone.still), (&[begins, turns].concat()[..], true));
        let heads = |log: &[Move]| log.iter().map(|mv| mv.head()).collect::<Vec<_>>();
        assert_eq!(heads(&log[3..]), heads(&freed));
    }
}

// Catches a transaction with an abort mark that takes part: its messages stand first on every port, and are passed over
// by rules of all classes until it is aborted.
#[test]
fn stopped_transactions_take_no_part() {
    let rules =
        vec![for_one(&[2], 0), for_one(&[1, 1], 0), for_one(&[2, 2], 0), for_one(&[1], 0), vec![Atom::consume(0)]];
    let table = Table { global: 1, local: 1, merge: 1, rules }.words();
    let stopped = [Entry::message(1, 1, 5), Entry::message(1, 1, 5), Entry::message(1, 2, 5), Entry::message(1, 2, 5)];
    let marks = [Entry::abort_mark(1), Entry::member_mark(1, 1), Entry::member_mark(2, 2)];
    let own = [Entry::message(1, 0, 5), Entry::compensation(1, 0, 6)];
    let mut entries = [&stopped[..], &own, &marks].concat();
    let state = |entries: &[Entry]| State { next: 3, entries: entries.to_vec() }.words();
    let end = [Move::commit(2), Move::abort(1), Move::react(4, &[0])];
    gives(Alone::new(9).of(&table, &state(&entries)), &end, true);
    entries.push(Entry::message(2, 1, 5));
    let one = [Move::react(3, &[9]), Move::commit(2), Move::react(4, &[8]), Move::abort(1), Move::react(4, &[0])];
    gives(Alone::new(9).of(&table, &state(&entries)), &one, true);
    entries.push(Entry::message(2, 1, 5));
    let two = [Move::react(1, &[9, 10]), Move::commit(2), Move::react(4, &[8]), Move::abort(1), Move::react(4, &[0])];
    gives(Alone::new(9).of(&table, &state(&entries)), &two, true);
    entries.push(Entry::message(2, 2, 5));
    let (alone, words) = Alone::new(9).of(&table, &state(&entries));
    assert_eq!((alone.still, log_from_words(&words).unwrap()[0]), (true, Move::react(0, &[11])));
    // A mark that a move of the run itself leaves stops the rest of that transaction.
    let stop = vec![Atom::consume(1), Atom::ABORT];
    let table = Table { global: 1, local: 1, merge: 1, rules: vec![stop, for_one(&[2], 0)] }.words();
    let entries = [Entry::message(1, 2, 5), Entry::member_mark(1, 1), Entry::message(1, 1, 5), Entry::message(1, 1, 5)];
    let log = [Move::react(0, &[2]), Move::abort(1)];
    gives(Alone::new(9).of(&table, &State { next: 2, entries: entries.to_vec() }.words()), &log, true);
}

// Catches an abort mark that a move of the run leaves and the next step does not know of, and one that stops or hides
// what others have: a rule of each class that leaves one, and the same rule without it, after which all is taken.
#[test]
fn rules_that_stop_their_transaction() {
    let owned = |id: u32, ports: &[u32]| {
        let messages = ports.iter().map(|&port| Entry::message(id, port, 5));
        [Entry::member_mark(id, id)].into_iter().chain(messages).collect::<Vec<_>>()
    };
    let body = |port: u32| Atom::constant(role::BODY, port, 5);
    // The first rule, the log on n entries where it leaves a mark, and the number of reactions where it leaves none.
    type Case = (Vec<Atom>, Vec<Entry>, fn(u32) -> Vec<Move>, usize);
    let cases: [Case; 3] = [
        // Both bodies on port 3 stand before what transaction 1 then makes there.
        (
            vec![Atom::consume(1), Atom::BEGIN, body(3), body(4)],
            [owned(1, &[2]), vec![Entry::message(0, 1, 5); 2]].concat(),
            |n| {
                let made = [Move::react(0, &[2]), Move::react(0, &[2]), Move::react(3, &[1]), Move::react(1, &[n + 5])];
                [&made[..], &[Move::commit(1), Move::abort(4), Move::abort(5)]].concat()
            },
            8,
        ),
        (
            for_one(&[2], 3),
            [owned(1, &[3, 2, 4]), owned(2, &[3])].concat(),
            |_| vec![Move::react(0, &[2]), Move::react(1, &[4]), Move::commit(2), Move::abort(1)],
            5,
        ),
        // One message on port 4 is stopped, and transaction 3 has one: too few for the first rule.
        (
            for_one(&[4, 4], 3),
            [owned(2, &[3, 4]), owned(1, &[4, 3, 4]), owned(3, &[3, 4])].concat(),
            |_| {
                let made = [Move::react(0, &[2, 4]), Move::react(1, &[6]), Move::react(2, &[6])];
                [&made[..], &[Move::commit(3), Move::abort(1)]].concat()
            },
            7,
        ),
    ];
    for (rule, entries, log, unstopped) in cases {
        let others = [for_one(&[3], 0), for_one(&[4], 0), for_one(&[2], 3)];
        let table = |first: &[Atom]| {
            let rules = [&[first.to_vec()][..], &others].concat();
            Table { global: 2, local: 2, merge: 1, rules }.words()
        };
        let (stops, goes_on) = (table(&[&rule[..], &[Atom::ABORT]].concat()), table(&rule));
        for state in filled(4, &entries) {
            gives(Alone::new(20).of(&stops, &state), &log(state[0]), true);
            let (_, words) = Alone::new(20).of(&goes_on, &state);
            let reactions = log_from_words(&words).unwrap().iter().filter(|mv| mv.kind == act::REACT).count();
            assert_eq!(reactions, unstopped);
        }
    }
}

// Catches ids that are looked for in too few words: as many transactions as a state can hold, far apart, with one pair for
// a local rule that the first and the last have a half of.
#[test]
fn as_many_transactions_as_fit() {
    let table = Table { global: 1, local: 2, merge: 0, rules: vec![for_one(&[1, 2], 0)] }.words();
    let ids: Vec<u32> = (1..=1_019).map(|place| 64 * place).collect();
    let [first, .., other, last] = ids[..] else { unreachable!() };
    let mut entries: Vec<Entry> = ids.iter().rev().map(|&id| Entry::member_mark(id, id)).collect();
    for (owner, port) in [(first, 1), (last, 1), (other, 2), (last, 2), (last, 2)] {
        entries.push(Entry::message(owner, port, 5));
    }
    let state = State { next: 65_281, entries }.words();
    let commits = ids[1..1_017].iter().map(|&id| Move::commit(id));
    let log: Vec<Move> = [Move::react(0, &[1_020, 1_022])].into_iter().chain(commits).collect();
    gives(Alone::new(1_024).of(&table, &state), &log, true);
    gives(Alone::new(1_017).of(&table, &state), &log, true);
    gives(Alone::new(1_016).of(&table, &state), &log[..1_016], false);
}

// Catches a count of one transaction's messages that is taken for another's: ids that differ by multiples of 1,024, of
// which one has all messages of a local rule and the others a part each, that together would do.
#[test]
fn ids_that_share_a_remainder() {
    // The first candidate, transaction 7, lacks a message. Those of 5 and 1,029 come next, which count as one.
    let two: &[(u32, u32)] = &[(7, 1), (5, 1), (1_029, 2), (5, 1), (2_053, 2), (2_053, 1)];
    let three: &[(u32, u32)] = &[(7, 1), (5, 1), (5, 2), (1_029, 1), (1_029, 3), (2_053, 3), (2_053, 1), (2_053, 2)];
    let twice: &[(u32, u32)] = &[(7, 1), (5, 1), (1_029, 1), (1_029, 2), (2_053, 1), (2_053, 2), (2_053, 1)];
    // Here the first candidate, 1,029, is one of them.
    let first: &[(u32, u32)] = &[(1_029, 1), (5, 2), (7, 1), (5, 2), (2_053, 2), (2_053, 1)];
    for (takes, messages, picks) in [
        (&[1, 2][..], two, &[9, 8][..]),
        (&[1, 2, 3], three, &[10, 11, 9]),
        (&[1, 1, 2], twice, &[8, 10, 9]),
        (&[1, 2], first, &[9, 8]),
    ] {
        let table = Table { global: 1, local: 3, merge: 0, rules: vec![for_one(takes, 0)] }.words();
        let mut entries: Vec<Entry> = [7, 5, 1_029, 2_053].map(|id| Entry::member_mark(id, id)).to_vec();
        entries.extend(messages.iter().map(|&(owner, port)| Entry::message(owner, port, 5)));
        let log = [Move::react(0, picks), Move::commit(2_053)];
        for state in filled(2_054, &entries) {
            gives(Alone::new(9).of(&table, &state), &log, true);
        }
        entries.truncate(4 + messages.iter().filter(|(owner, _)| *owner != 2_053).count());
        for state in filled(2_054, &entries) {
            gives(Alone::new(9).of(&table, &state), &log[1..], true);
        }
    }
}

/// Each of some steps of a log beside the first of the list in the state that the log before it leaves.
fn sampled(random: &mut Random, table: &[u32], state: &[u32], log: &[Move], still: bool) {
    let places = [0, 1, log.len() / 2].into_iter().chain((0..12).map(|_| random.index(log.len() + 1)));
    for place in places.filter(|&place| place < log.len()) {
        let mut target = [0; STATE_TARGET];
        let ran = library::run(table, state, &log_words(&log[..place]), &mut [0; 4], &mut target);
        assert_eq!(first_of_list(table, &target[..ran.words() as usize]), Some(log[place]), "{place}");
    }
    assert_eq!(still_at(table, state, log), still);
}

// Catches what only large plants meet: 64 rules of four takes on 1,024 entries, 1,024 moves, in each class, with and
// without abort marks.
#[test]
fn large_plants() {
    let mut random = Random::new(1_004);
    for (class, open, ports, marked) in [
        (0, 0, [8, 4, 4], 0),
        (0, 0, [200, 0, 0], 0),
        (1, 300, [8, 4, 4], 0),
        (1, 3, [1, 12, 0], 0),
        (1, 600, [0, 1, 0], 0),
        (2, 300, [8, 4, 4], 0),
        (1, 300, [8, 4, 4], 100),
        (1, 3, [1, 12, 0], 2),
        (2, 300, [8, 4, 4], 250),
        (2, 900, [0, 0, 1], 900),
    ] {
        let table = fours(&mut random, ports, class);
        let mut state = spread(&mut random, &table, class, 1_024, open);
        for id in 1..=marked {
            let message = |entry: &&mut Entry| entry.owner == id && entry.kind == kind::MESSAGE;
            if let Some(entry) = state.entries.iter_mut().find(message) {
                *entry = Entry::abort_mark(id);
            }
        }
        let (table, state) = (table.words(), state.words());
        let (alone, words) = Alone::new(1_024).of_long(&table, &state);
        let log = log_from_words(&words).unwrap();
        assert!(alone.moves > 100, "{class} {open} {ports:?}: {alone:?}");
        sampled(&mut random, &table, &state, &log, alone.still);
        for budget in [1_023, 1_000, 3] {
            let made = log.len().min(budget);
            let (other, words) = Alone::new(budget as u32).of_long(&table, &state);
            assert_eq!(log_from_words(&words).unwrap(), log[..made]);
            assert_eq!(other.still, alone.still && made == log.len());
        }
    }
}

// Catches what only long logs meet, and an end that is missed after many moves: random plants with the largest budget.
#[test]
fn random_plants_with_the_largest_budget() {
    let mut random = Random::new(1_005);
    let mut coverage = Coverage::default();
    for round in 0..1_500 {
        let (table, state) = plant(&mut random, round);
        let (table, state) = (table.words(), state.words());
        let budget = random.pick(&[1_024, 1_024, 1_023, 600]);
        let (alone, words) = Alone::new(budget).of_long(&table, &state);
        let log = log_from_words(&words).unwrap();
        sampled(&mut random, &table, &state, &log, alone.still);
        coverage.add([("spent", !alone.still), ("still after many", alone.still && alone.moves > 30)]);
        coverage.add([("still", alone.still), ("ids used up", state[1] < MAX_NEXT && used_up(&table, &state, &log))]);
    }
    coverage.has_all(30);
}

fn used_up(table: &[u32], state: &[u32], log: &[Move]) -> bool {
    let mut target = [0; STATE_TARGET];
    library::run(table, state, &log_words(log), &mut [0; 4], &mut target);
    target[1] == MAX_NEXT
}

// Catches a budget that changes the moves made, or is not used up: every budget there is, on a plant of each kind that
// never rests, and on one that rests after 700 moves.
#[test]
fn every_budget_begins_the_next() {
    let mut random = Random::new(1_006);
    let mut plants: Vec<[Vec<u32>; 2]> = PLANTS
        .map(|plant| {
            let (table, state) = (plant.make)(&mut random, 7, 16);
            [table.words(), state.words()]
        })
        .to_vec();
    plants.push(taking(700));
    for [table, state] in plants {
        let (longest, words) = Alone::new(1_024).of_long(&table, &state);
        let log = log_from_words(&words).unwrap();
        assert_eq!(longest.still, log.len() == 700);
        for budget in 0..=1_024 {
            let made = log.len().min(budget);
            let mut target = vec![0x5A5A_5A5A; log_target(budget)];
            let alone = library::run_unattended(&table, &state, budget as u32, &mut target);
            let answer = Answer::Accepted(log_target(made) as u32);
            assert_eq!(alone, Unattended { answer, moves: made as u32, still: longest.still && made == log.len() });
            let (written, behind) = target.split_at(log_target(made));
            assert!(written == log_words(&log[..made]) && behind.iter().all(|&word| word == 0x5A5A_5A5A), "{budget}");
        }
    }
}

/// The logs of other budgets have the moves of this one at their front, up to where this one ends.
fn prefixes(random: &mut Random, table: &[u32], state: &[u32], log: &[Move], still: bool, budget: u32) {
    let moves = log.len() as u32;
    let others = [moves.saturating_sub(1), moves, moves + 1, budget + 1, budget + 7, random.below(moves + 1), 1_024];
    // The longest only where it is short.
    let others = if still { &others[..] } else { &others[..6] };
    for &other in others.iter().filter(|&&other| other <= 1_024) {
        let (alone, words) = Alone::new(other).of_long(table, state);
        let other_log = log_from_words(&words).unwrap();
        let shared = other_log.len().min(log.len());
        assert_eq!(other_log[..shared], log[..shared], "budgets {budget} and {other}");
        if still {
            gives((alone, words), &log[..moves.min(other) as usize], moves <= other);
        } else {
            assert_eq!(alone.still, (alone.moves as usize) < other as usize || still_at(table, state, &other_log));
            assert!(other < budget || other_log.len() >= log.len(), "a larger budget shortens the log");
        }
    }
}

fn still_at(table: &[u32], state: &[u32], log: &[Move]) -> bool {
    first_of_list(table, &reached(table, state, log)).is_none()
}

// Catches anything else: all implementations beside each other on random plants; each move beside the first of the
// list in the state that the log before it leaves; the logs of other budgets beside this one.
#[test]
fn random_plants() {
    let mut random = Random::new(1_003);
    let (mut coverage, mut modelled) = (Coverage::default(), 0);
    for round in 0..6_000 {
        let (plant, start) = plant(&mut random, round);
        let (table, state) = (plant.words(), start.words());
        let budget = random.pick(&[0, 1, 2, 5, 12, 30, 30]);
        let (alone, words, asked) = Alone::new(budget).of_any(&table, &state);
        let log = log_from_words(&words).unwrap();
        modelled += usize::from(asked);
        let mut now = state.clone();
        for (place, &mv) in log.iter().enumerate() {
            assert_eq!(first_of_list(&table, &now), Some(mv), "{place} of {log:?} on {table:x?} {state:x?}");
            coverage.add(Step { table: &plant, state: State::from_words(&now).unwrap(), first: Some(mv) }.met());
            now = reached(&table, &now, &[mv]);
        }
        assert_eq!(now, reached(&table, &state, &log));
        let first = first_of_list(&table, &now);
        assert_eq!(alone.still, first.is_none(), "{log:?} on {table:x?} {state:x?}");
        coverage.add(Step { table: &plant, state: State::from_words(&now).unwrap(), first }.met());
        prefixes(&mut random, &table, &state, &log, alone.still, budget);
        let (moves, still) = (alone.moves, alone.still);
        coverage.add([
            ("still before the budget is used up", still && 0 < moves && moves < budget),
            ("still at once", still && moves == 0 && budget > 0),
            ("still with the last move", still && moves == budget && budget > 0),
            ("spent", !still && budget > 0),
            ("spent without a move", !still && budget == 0),
            ("reactions, commits and aborts", [0, 1, 2].iter().all(|kind| log.iter().any(|mv| mv.kind == *kind))),
            (
                "a reaction behind an end",
                log.windows(2).any(|pair| pair[0].kind != act::REACT && pair[1].kind == act::REACT),
            ),
        ]);
    }
    assert!(modelled > 4_000, "{modelled}");
    coverage.has_all(30);
}
