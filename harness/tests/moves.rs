//! The single move: all implementations on right, damaged and random input.
mod common;

use common::faulty::{any_words, first_fault_counts, long_noise, noise, wrong_words};
use common::{after, after_a, check_state, ends, every_rule, make_move, marks_gone, marks_removed, merging, on_target};
use common::{reacted, refused, MAKE_MOVE};
use harness::answer::{order, Answer};
use harness::generate::aborting::{marked, met, number, reaction_among};
use harness::generate::coverage::Coverage;
use harness::generate::moves::{aborting, allowed, changed, consumes};
use harness::generate::states::state;
use harness::generate::tables::{table, Shape};
use harness::in_c;
use harness::random::Random;
use harness::two_lot::{self, case_a, case_c, case_d};
use harness::words::{act, role, Atom, Entry, Move, State, Table};

fn react(rule: u32, picks: &[u32]) -> Vec<u32> {
    Move::react(rule, picks).words()
}

// Catches a coordinator that refuses all, gives the start back or has one fixed end state.
#[test]
fn cases_a_and_c_by_single_moves() {
    assert_eq!(after(&case_a()), two_lot::END_A);
    // n and N as the program's second line shows them.
    assert_eq!(after_a(1)[..2], [4, 2]);
    assert_eq!(after(&case_c()), two_lot::END_C);
}

// Catches members of a reaction, a begin or a merge among them, and a merged transaction that counts as one.
#[test]
fn members_of_cases_a_c_and_d() {
    let cases: [(Vec<Move>, &[u32]); 3] =
        [(case_a(), &[0, 0, 0, 0, 0, 2]), (case_c(), &[0, 0, 0, 0, 1]), (case_d(), &[0, 0, 0, 0, 1, 1])];
    for (moves, members) in cases {
        assert_eq!(moves.len(), members.len());
        for (place, (mv, &members)) in moves.iter().zip(members).enumerate() {
            let (answer, words) = make_move(&two_lot::table(), &after(&moves[..place]), &mv.words());
            assert_eq!(answer, Answer::Moved { words: words.len() as u32, members }, "{place} of {moves:?}");
        }
    }
}

// Catches members that a merge loses, and ones that are counted for another transaction: four of five transactions
// merge, whichever is left alone, and end both ways; the one alone ends as one.
#[test]
fn four_members_end_at_once() {
    let table = merging().words();
    let reacts = |state: &[u32], rule: u32, picks: &[u32]| {
        let (answer, words) = make_move(&table, state, &react(rule, picks));
        assert_eq!(answer, reacted(words.len() as u32));
        words
    };
    let start = State { next: 1, entries: vec![Entry::message(0, 0, 7); 5] }.words();
    let begun = (0..5).fold(start, |state, _| reacts(&state, 0, &[0]));
    for alone in 1..=5 {
        // A transaction's entries are its mark, its offer and its compensation.
        let offers: Vec<u32> = (1..=5).filter(|&id| id != alone).map(|id| 3 * id - 2).collect();
        for (rule, end) in [(3, Move::commit as fn(u32) -> Move), (4, Move::abort)] {
            let merged = reacts(&begun, 2, &offers);
            let ready = reacts(&merged, rule, &[merged[0] - 1]);
            let id = if alone == 1 { 2 } else { 1 };
            let (answer, left) = make_move(&table, &ready, &end(id).words());
            assert_eq!((answer.number(), answer.members()), (0, 4), "{alone} alone, {:?}", end(id));
            let offer = State::from_words(&left).unwrap().entries.iter().position(|entry| entry.port == 1).unwrap();
            let ready = reacts(&left, rule, &[offer as u32]);
            let (answer, _) = make_move(&table, &ready, &end(alone).words());
            assert_eq!((answer.number(), answer.members()), (0, 1), "{alone} alone, {:?}", end(alone));
        }
    }
}

// Catches a count that is cut short or is off by one: two transactions share the marks of a state that is full or
// nearly so, up to the last id, and one of them ends.
#[test]
fn members_of_a_full_state() {
    let mut random = Random::new(308);
    let table = two_lot::table();
    for members in [1, 2, 3, 4, 31, 32, 33, 255, 256, 257, 511, 512, 513, 1_021, 1_022] {
        let first = 65_536 - 1_023;
        let other = first + members;
        let owner = |id: u32| if id < other { first } else { other };
        let mut entries: Vec<Entry> = (first..65_536).map(|id| Entry::member_mark(owner(id), id)).collect();
        for (mark, end) in [(None, Move::commit(first)), (Some(first), Move::abort(first))] {
            entries.extend(mark.map(Entry::abort_mark));
            random.shuffle(&mut entries);
            let state = State { next: 65_536, entries: entries.clone() };
            let left: Vec<Entry> = entries.iter().copied().filter(|entry| entry.owner == other).collect();
            let end = make_move(&table, &state.words(), &end.words());
            ends(end, &State { next: 65_536, entries: left }.words(), members);
        }
    }
    let all = State { next: 1_025, entries: (1..=1_024).map(|id| Entry::member_mark(1, id)).collect() };
    ends(make_move(&table, &all.words(), &Move::commit(1).words()), &[0, 1_025], 1_024);
}

// Catches members beside a refusal, which only C sees: moves that are refused beside a transaction with three.
#[test]
fn a_refused_move_tells_no_members() {
    let table = two_lot::table();
    let mut entries = vec![Entry::member_mark(3, 3), Entry::member_mark(3, 5), Entry::member_mark(3, 4)];
    let ready = State { next: 9, entries: entries.clone() }.words();
    entries.push(Entry::message(3, 2, 7));
    let unfinished = State { next: 9, entries }.words();
    let in_c =
        |table: &[u32], state: &[u32], mv: &[u32], room: usize| in_c::make_move(table, state, mv, &mut vec![0; room]);
    let [commit, abort] = [Move::commit(3), Move::abort(3)].map(Move::words);
    assert_eq!(in_c(&table, &ready, &commit, 2_050), [0, 2, 0, 0, 3]);
    assert_eq!(in_c(&table[1..], &ready, &commit, 2_050), [1, 0, 0, 0, 0]);
    assert_eq!(in_c(&table, &ready[1..], &commit, 2_050), [3, 0, 0, 0, 0]);
    assert_eq!(in_c(&table, &ready, &commit[1..], 2_050), [5, 0, 0, 0, 0]);
    assert_eq!(in_c(&table, &ready, &commit, 2_049), [6, 0, 0, 0, 0]);
    assert_eq!(in_c(&table, &unfinished, &react(1, &[0]), 2_050), [7, 0, 0, 0, 0]);
    assert_eq!(in_c(&table, &ready, &Move::commit(4).words(), 2_050), [9, 0, 0, 0, 0]);
    assert_eq!(in_c(&table, &ready, &abort, 2_050), [10, 0, 0, 0, 0]);
    assert_eq!(in_c(&table, &unfinished, &commit, 2_050), [10, 0, 0, 0, 0]);
}

// Catches members that are not the marks which the transaction has in the state's words before its end, and a count
// that differs from the marks that are gone from the words after it.
#[test]
fn random_moves_tell_the_marks_removed() {
    let mut random = Random::new(307);
    let mut coverage = Coverage::default();
    for round in 0..12_000 {
        let table = table(&mut random, [Shape::Any, Shape::Small, Shape::EveryClass, Shape::Closable][round % 4]);
        let most = random.pick(&[6, 20, 60, 300]);
        let state = state(&mut random, &table, most, true);
        let Some(mv) = allowed(&mut random, &table, &state, 50) else { continue };
        let before = state.words();
        let (answer, after) = make_move(&table.words(), &before, &mv.words());
        if answer.number() != 0 {
            continue;
        }
        let members = answer.members();
        assert_eq!(members, marks_removed(&before, &mv.words()), "{mv:?} of {state:?}");
        assert_eq!(members, marks_gone(&before, &after), "{mv:?} of {state:?}");
        let begins = after[1] > before[1];
        let [reacts, commits, aborts] = [act::REACT, act::COMMIT, act::ABORT].map(|kind| mv.kind == kind);
        coverage.add([
            ("a begin", begins),
            ("another reaction", reacts && !begins),
            ("a commit of one", commits && members == 1),
            ("a commit of two or more", commits && members > 1),
            ("a commit of four or more", commits && members > 3),
            ("an abort of one", aborts && members == 1),
            ("an abort of two or more", aborts && members > 1),
            ("an abort of four or more", aborts && members > 3),
        ]);
    }
    coverage.has_all(50);
}

// Catches a commit with a merge message inside (b), a pick used twice (e), an abort without an
// abort mark (f), and an id that is not open (g).
#[test]
fn cases_b_e_f_g() {
    for case in two_lot::refused() {
        refused(make_move(&two_lot::table(), &after_a(case.after), &case.mv.words()), case.number);
    }
}

// Catches a merge that relabels only what was picked, and one that keeps the larger id.
#[test]
fn a_merge_takes_everything_of_each_transaction() {
    let table = two_lot::table();
    let state = State {
        next: 9,
        entries: vec![
            Entry::message(7, 3, 70),
            Entry::member_mark(4, 4),
            Entry::message(0, 1, 1),
            Entry::compensation(4, 1, 3),
            Entry::member_mark(7, 7),
            Entry::message(4, 3, 40),
            Entry::member_mark(7, 8),
            Entry::compensation(7, 0, 5),
            Entry::message(7, 2, 6),
            Entry::member_mark(2, 2),
        ],
    };
    let expected = State {
        next: 9,
        entries: vec![
            Entry::member_mark(4, 4),
            Entry::message(0, 1, 1),
            Entry::compensation(4, 1, 3),
            Entry::member_mark(4, 7),
            Entry::member_mark(4, 8),
            Entry::compensation(4, 0, 5),
            Entry::message(4, 2, 6),
            Entry::member_mark(2, 2),
            Entry::message(4, 1, 70),
            Entry::message(4, 1, 40),
        ],
    };
    ends(make_move(&table, &state.words(), &react(2, &[0, 5])), &expected.words(), 0);
    // Only the smallest id names it now, and its abort frees the compensations of both.
    let (_, stopped) = make_move(&table, &expected.words(), &react(3, &[6]));
    refused(make_move(&table, &stopped, &Move::abort(7).words()), 9);
    let freed =
        vec![Entry::message(0, 1, 1), Entry::message(0, 1, 3), Entry::message(0, 0, 5), Entry::member_mark(2, 2)];
    ends(make_move(&table, &stopped, &Move::abort(4).words()), &State { next: 9, entries: freed }.words(), 3);
}

// Catches an abort mark that is looked for only in the first, the last or the smallest transaction of a
// merge, or where none of the picked ones has it: every choice of transactions with a mark.
#[test]
fn no_pick_is_in_an_aborting_transaction() {
    let table = every_rule().words();
    for marks in 0..1u32 << 4 {
        let marked = |id: u32| marks >> (id - 1) & 1 == 1;
        // Ids fall, so that the first pick is not in the smallest transaction.
        let mut entries: Vec<Entry> = (1..=4).rev().map(|id| Entry::message(id, 2, id)).collect();
        entries.extend((1..=4).map(|id| Entry::message(id, 1, id)));
        entries.extend((1..=4).map(|id| Entry::member_mark(id, id)));
        entries.push(Entry::message(0, 0, 9));
        entries.extend((1..=4).filter(|&id| marked(id)).map(Entry::abort_mark));
        let n = entries.len() as u32;
        let state = State { next: 5, entries }.words();
        // The last merge consumes the messages on port 2 of transactions 4, 3, 2 and 1, those before it any
        // neighbours of them.
        for (rule, picks) in [(2, 1), (3, 2), (4, 3), (5, 4)] {
            for first in 0..=4 - picks {
                let places: Vec<u32> = (first..first + picks).collect();
                let stopped = places.iter().any(|place| marked(4 - place));
                for places in [places.clone(), places.into_iter().rev().collect()] {
                    let (answer, _) = make_move(&table, &state, &react(rule, &places));
                    let expected = if stopped { Answer::Refused(18) } else { reacted(4 + 2 * (n - picks)) };
                    assert_eq!(answer, expected, "{marks:04b} {places:?}");
                }
            }
        }
        for id in 1..=4 {
            let (answer, _) = make_move(&table, &state, &react(1, &[3 + id]));
            assert_eq!(answer.number(), if marked(id) { 18 } else { 0 }, "{marks:04b} {id}");
            // Its end is decided as before: a commit wants no mark and no other messages, an abort wants a mark.
            refused(make_move(&table, &state, &Move::commit(id).words()), 10);
            let (answer, _) = make_move(&table, &state, &Move::abort(id).words());
            assert_eq!(answer.number(), if marked(id) { 0 } else { 10 }, "{marks:04b} {id}");
        }
        // Global rules go on, also one that begins with an abort mark inside.
        for rule in [0, 6] {
            assert_eq!(make_move(&table, &state, &react(rule, &[12])).0.number(), 0, "{marks:04b} {rule}");
        }
    }
}

// Catches an abort mark that is missed at some place, and one that is taken for another transaction's: every
// place of a small state, and in a full one the ends and what a search in chunks could miss.
#[test]
fn an_abort_mark_at_any_place() {
    let table = every_rule().words();
    let some = [0, 1, 2, 15, 16, 31, 32, 63, 64, 127, 128, 511, 512, 1_007, 1_008, 1_021, 1_022, 1_023];
    for (n, places) in [(70, (0..70).collect()), (1_024, some.to_vec())] {
        for place in places {
            for id in [1, 2] {
                let mut entries = vec![Entry::message(0, 0, 9); n - 1];
                entries[20] = Entry::message(1, 1, 5);
                entries[40] = Entry::member_mark(1, 1);
                entries[60] = Entry::member_mark(2, 2);
                entries.insert(place, Entry::abort_mark(id));
                let pick = if place <= 20 { 21 } else { 20 };
                let (answer, _) = make_move(&table, &State { next: 3, entries }.words(), &react(1, &[pick]));
                assert_eq!(answer.number(), if id == 1 { 18 } else { 0 }, "{id} at {place} of {n}");
            }
        }
    }
}

// Catches a begin that is refused for the abort mark inside it, and a reaction in what it began.
#[test]
fn a_transaction_begun_with_an_abort_mark_only_aborts() {
    let table = every_rule().words();
    let start = State { next: 1, entries: vec![Entry::message(0, 0, 7)] }.words();
    let (answer, begun) = make_move(&table, &start, &react(0, &[0]));
    assert_eq!(answer, reacted(12));
    refused(make_move(&table, &begun, &react(1, &[1])), 18);
    refused(make_move(&table, &begun, &react(2, &[2])), 18);
    refused(make_move(&table, &begun, &Move::commit(1).words()), 10);
    ends(make_move(&table, &begun, &Move::abort(1).words()), &[1, 2, 0, 7], 1);
}

// Catches any difference on reactions whose picks fit but for abort marks, in every mixture of
// transactions with and without one.
#[test]
fn random_reactions_beside_abort_marks() {
    let mut random = Random::new(306);
    let mut coverage = Coverage::default();
    for _ in 0..20_000 {
        let (table, state) = marked(&mut random);
        let Some(mv) = reaction_among(&mut random, &table, &state) else { continue };
        let (answer, _) = make_move(&table.words(), &state.words(), &mv.words());
        assert_eq!(answer.number(), number(&table, &state, &mv), "{mv:?} of {table:?} {state:?}");
        coverage.add(met(&table, &state, &mv));
    }
    coverage.has_all(50);
}

// Catches a commit that drops or moves messages, keeps compensations, or looks at the wrong class.
#[test]
fn a_commit_frees_messages_in_their_places() {
    let table = two_lot::table();
    let mut state = State {
        next: 4,
        entries: vec![
            Entry::compensation(3, 0, 1),
            Entry::message(3, 1, 2),
            Entry::message(0, 0, 3),
            Entry::member_mark(3, 3),
            Entry::message(3, 0, 4),
        ],
    };
    let freed = [Entry::message(0, 1, 2), Entry::message(0, 0, 3), Entry::message(0, 0, 4)];
    let end = State { next: 4, entries: freed.to_vec() };
    ends(make_move(&table, &state.words(), &Move::commit(3).words()), &end.words(), 1);
    for port in [2, 3] {
        state.entries[4].port = port;
        refused(make_move(&table, &state.words(), &Move::commit(3).words()), 10);
    }
    state.entries[4] = Entry::abort_mark(3);
    refused(make_move(&table, &state.words(), &Move::commit(3).words()), 10);
}

// Catches a global rule that takes a message still inside a transaction, a local rule over two
// transactions, and a compensation taken for a message.
#[test]
fn owners_and_kinds_of_picks() {
    let table = Table {
        global: 1,
        local: 1,
        merge: 0,
        rules: vec![vec![Atom::consume(0)], vec![Atom::consume(1), Atom::consume(1)]],
    };
    let entries = vec![
        Entry::member_mark(1, 1),
        Entry::member_mark(2, 2),
        Entry::message(1, 0, 5),
        Entry::compensation(1, 0, 5),
        Entry::message(1, 1, 5),
        Entry::message(2, 1, 5),
        Entry::message(1, 1, 6),
        Entry::abort_mark(2),
    ];
    let (table, state) = (table.words(), State { next: 3, entries }.words());
    refused(make_move(&table, &state, &react(0, &[2])), 8);
    for place in [0, 3, 4, 7, 8, u32::MAX] {
        refused(make_move(&table, &state, &react(0, &[place])), 7);
    }
    refused(make_move(&table, &state, &react(1, &[4, 5])), 8);
    assert_eq!(make_move(&table, &state, &react(1, &[6, 4])).0, reacted(2 + 2 * 6));
}

// Catches a wrong order or owner of products, a mark left out, a value from the wrong consume.
#[test]
fn products_of_a_begin() {
    let rule = vec![
        Atom::consume(0),
        Atom::consume(1),
        Atom::received(role::EMIT, 1, 1),
        Atom::BEGIN,
        Atom::received(role::BODY, 2, 0),
        Atom::constant(role::BODY, 0, 65_535),
        Atom::received(role::COMPENSATE, 0, 1),
        Atom::ABORT,
    ];
    let table = Table { global: 2, local: 1, merge: 0, rules: vec![rule] };
    let state =
        State { next: 40, entries: vec![Entry::message(0, 1, 11), Entry::message(0, 0, 3), Entry::message(0, 0, 22)] };
    let end = State {
        next: 41,
        entries: vec![
            Entry::message(0, 0, 3),
            Entry::message(0, 1, 11),
            Entry::member_mark(40, 40),
            Entry::message(40, 2, 22),
            Entry::message(40, 0, 65_535),
            Entry::compensation(40, 0, 11),
            Entry::abort_mark(40),
        ],
    };
    ends(make_move(&table.words(), &state.words(), &react(0, &[2, 0])), &end.words(), 0);
}

// Catches any difference on allowed moves, and a move after which the state is not well formed.
#[test]
fn random_allowed_moves() {
    let mut random = Random::new(301);
    let mut made = [0; 3];
    let mut beside = 0;
    for round in 0..12_000 {
        let table = table(&mut random, if round % 4 == 0 { Shape::Any } else { Shape::Small });
        let most = random.pick(&[6, 20, 60, 1_024]);
        let state = state(&mut random, &table, most, true);
        let Some(mv) = allowed(&mut random, &table, &state, 30) else { continue };
        let (answer, words) = make_move(&table.words(), &state.words(), &mv.words());
        match answer {
            Answer::Moved { .. } => {
                assert_eq!(check_state(&table.words(), &words), Answer::Accepted(0));
                made[mv.kind as usize] += 1;
                beside += usize::from(mv.kind == act::REACT && !aborting(&state).is_empty());
            }
            // Only the limits may refuse it.
            Answer::Refused(number) => assert!([11, 12].contains(&number), "{number}"),
            Answer::Accepted(_) | Answer::MoveRefused { .. } => unreachable!(),
        }
    }
    assert!(made.iter().all(|&count| count > 400) && beside > 400, "{made:?} {beside}");
}

// Catches a result that depends on where entries stand: the same move on a shuffled state leaves
// the same entries, as often.
#[test]
fn the_order_of_entries_is_free() {
    let mut random = Random::new(305);
    let mut made = 0;
    for _ in 0..6_000 {
        let table = table(&mut random, Shape::Small);
        let state = state(&mut random, &table, 30, true);
        let Some(mut mv) = allowed(&mut random, &table, &state, 30) else { continue };
        let entries_after = |state: &State, mv: Move| {
            let (_, words) = make_move(&table.words(), &state.words(), &mv.words());
            let mut entries = State::from_words(&words)?.entries;
            entries.sort_unstable();
            Some(entries)
        };
        let Some(expected) = entries_after(&state, mv) else { continue };
        let mut order: Vec<usize> = (0..state.entries.len()).collect();
        random.shuffle(&mut order);
        let shuffled = State { next: state.next, entries: order.iter().map(|&place| state.entries[place]).collect() };
        if mv.kind == act::REACT {
            let used = consumes(&table.rules[mv.number as usize]).len();
            for pick in &mut mv.picks[..used] {
                *pick = order.iter().position(|&place| place == *pick as usize).unwrap() as u32;
            }
        }
        assert_eq!(entries_after(&shuffled, mv), Some(expected));
        made += 1;
    }
    assert!(made > 2_000, "{made}");
}

// Catches any difference on moves near allowed ones; every refusal of the plant's state and 5
// must come up.
#[test]
fn random_changed_moves() {
    let mut random = Random::new(302);
    let mut answers = [0; 19];
    for round in 0..50_000 {
        let table = table(&mut random, if round % 6 == 0 { Shape::Any } else { Shape::Small });
        let most = random.pick(&[6, 20, 60, 1_024]);
        let mut state = state(&mut random, &table, most, true);
        if round % 8 == 0 && table.global > 0 {
            state.entries.resize(1_024, Entry::message(0, 0, 1));
        }
        let mv = changed(&mut random, &table, &state);
        answers[make_move(&table.words(), &state.words(), &mv).0.number() as usize] += 1;
    }
    for number in [0, 5, 7, 8, 9, 10, 11, 12, 18] {
        assert!(answers[number] > 100, "{number}: {answers:?}");
    }
}

// Catches a wrong range of kinds, rules or ids, a used "unused" pick, and a wrong length.
#[test]
fn words_of_a_move() {
    let (table, state) = (two_lot::table(), after_a(2));
    for (words, number) in wrong_words() {
        refused(make_move(&table, &state, &words), number);
    }
    for words in any_words(&mut Random::new(303)) {
        let (answer, _) = make_move(&table, &state, &words);
        assert!(words.len() == 5 || answer == Answer::Refused(5));
    }
}

// Catches a limit that is off by one: 1,024 entries and 1,025, ids 65,535 and 65,536.
#[test]
fn limits_of_a_move() {
    let grow = |gives: usize| {
        let mut rule = vec![Atom::consume(0); 4];
        rule.extend(vec![Atom::constant(role::EMIT, 0, 1); gives]);
        Table { global: 1, local: 0, merge: 0, rules: vec![rule] }.words()
    };
    let full = |n: usize| State { next: 1, entries: vec![Entry::message(0, 0, 1); n] }.words();
    let mv = react(0, &[1_019, 3, 0, 700]);
    // Four go and four come in a full state; one more is too many.
    assert_eq!(make_move(&grow(4), &full(1_024), &mv).0, reacted(2_050));
    refused(make_move(&grow(5), &full(1_024), &mv), 12);
    assert_eq!(make_move(&grow(5), &full(1_023), &mv).0, reacted(2_050));
    refused(make_move(&grow(6), &full(1_023), &mv), 12);
    refused(make_move(&grow(9), &full(1_020), &mv), 12);
    assert_eq!(make_move(&grow(8), &full(1_020), &mv).0, reacted(2_050));

    let table = two_lot::table();
    let at = |next: u32| vec![1, next, 0, 7];
    let (answer, words) = make_move(&table, &at(65_535), &react(0, &[0]));
    assert_eq!(answer, reacted(8));
    assert_eq!(words, [3, 65_536, 65_535, 65_535, 65_535, 0x0300_FFFF, 0x0002_0007, 0x0100_0007]);
    assert_eq!(check_state(&table, &words), Answer::Accepted(0));
    refused(make_move(&table, &at(65_536), &react(0, &[0])), 11);
    // Other moves go on with the last id used up.
    assert_eq!(make_move(&table, &words, &react(1, &[1])).0.number(), 0);
}

// Catches a target that is asked for too much or too little, and one that is written on 6.
#[test]
fn targets_of_a_move() {
    let (table, state) = (two_lot::table(), two_lot::start());
    for room in (0..12).chain(2_040..2_060).chain([5_000]) {
        let (answer, _) = on_target(MAKE_MOVE, [&table, &state, &react(0, &[0])], room);
        assert_eq!(answer, if room < 2_050 { Answer::Refused(6) } else { reacted(10) });
    }
}

// Catches refusals in another order than 01's and 02's.
#[test]
fn the_first_fault_counts() {
    first_fault_counts(&order::MOVE, |parts, room| on_target(MAKE_MOVE, parts, room).0.number());
}

// Catches a trap on noise in any part.
#[test]
fn noise_gets_one_answer() {
    let mut random = Random::new(304);
    for _ in 0..3_000 {
        let [table, state, mv] = noise(&mut random);
        let room = random.pick(&[0, 1, 2_049, 2_050, 2_051]);
        on_target(MAKE_MOVE, [&table, &state, &mv], room);
    }
    for [table, state, mv] in long_noise(&mut random) {
        make_move(&table, &state, &mv);
    }
}
