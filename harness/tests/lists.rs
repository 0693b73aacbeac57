//! The list of enabled moves: all implementations on right, damaged and random input.
mod common;

use std::collections::BTreeSet;

use common::{after_a, ask_faulty, fault_sets, faulty_plant, noisy, Asked};
use harness::answer::{order, Answer, Page};
use harness::generate::coverage::Coverage;
use harness::generate::lists::{listed, met};
use harness::generate::states::state;
use harness::generate::tables::{table, Shape};
use harness::generate::workloads::{fours, spread};
use harness::random::Random;
use harness::two_lot::{self, lists_a};
use harness::words::{kind, role, Atom, Entry, Move, State, Table, STATE_TARGET};
use harness::{library, model};

/// The words of moves, one after another.
fn words(moves: &[Move]) -> Vec<u32> {
    moves.iter().flat_map(|mv| mv.words()).collect()
}

/// A page with these moves, of a list of this length.
#[track_caller]
fn gives(page: (Page, Vec<u32>), moves: &[Move], length: u64) {
    let words = words(moves);
    assert_eq!(page, (Page { answer: Answer::Accepted(words.len() as u32), length }, words));
}

#[track_caller]
fn refused(page: (Page, Vec<u32>), number: u32) {
    assert_eq!(page, (Page::refused(number), vec![]));
}

/// Whether the library makes the move.
fn makes(table: &[u32], state: &[u32], mv: &[u32]) -> bool {
    library::make_move(table, state, mv, &mut [0; STATE_TARGET]).number() == 0
}

// Catches an empty list, one with a fixed move, one that takes permuted picks for one move, and one
// that goes on after the plant is done.
#[test]
fn lists_after_each_move_of_a() {
    for (moves, list) in lists_a().iter().enumerate() {
        let (table, state) = (two_lot::table(), after_a(moves));
        gives(Asked::new(0, 8).of(&table, &state), list, list.len() as u64);
        for mv in list {
            assert!(makes(&table, &state, &mv.words()), "{mv:?} after {moves}");
        }
    }
}

// Catches a transaction with an abort mark that still reacts, merges or is committed, one that is not
// aborted, and one without a mark that is left out with it.
#[test]
fn an_aborting_transaction_is_only_aborted() {
    let table = two_lot::table();
    let mut entries = State::from_words(&two_lot::aborting()).unwrap().entries;
    let mut list = |more: &[Entry]| {
        entries.extend(more);
        Asked::new(0, 256).of(&table, &State { next: 3, entries: entries.clone() }.words())
    };
    gives(list(&[]), &[Move::abort(2)], 1);
    gives(list(&[Entry::message(2, 2, 9)]), &[Move::abort(2)], 1);
    let merges = [Move::react(2, &[4, 8]), Move::react(2, &[8, 4]), Move::abort(2)];
    gives(list(&[Entry::message(1, 3, 5)]), &merges, 3);
    let more = [
        Move::react(0, &[10]),
        Move::react(1, &[9]),
        Move::react(2, &[4, 8]),
        Move::react(2, &[8, 4]),
        Move::react(3, &[9]),
        Move::abort(2),
    ];
    gives(list(&[Entry::message(1, 2, 5), Entry::message(0, 0, 5)]), &more, 6);
    gives(list(&[Entry::abort_mark(1)]), &[Move::react(0, &[10]), Move::abort(1), Move::abort(2)], 3);
}

// Catches ids in the order of entries instead of their own, and a merged member taken for an open
// transaction.
#[test]
fn ends_stand_by_id() {
    let mut state = State { next: 65_536, entries: Vec::new() };
    for id in [65_535, 3, 64, 1_000, 63, 1] {
        state.entries.push(Entry::member_mark(id, id));
    }
    state.entries.extend([Entry::abort_mark(1_000), Entry::member_mark(3, 40), Entry::abort_mark(3)]);
    state.entries.extend([Entry::message(64, 2, 5), Entry::message(63, 1, 5)]);
    let list = [
        Move::react(1, &[9]),
        Move::react(3, &[9]),
        Move::commit(1),
        Move::commit(63),
        Move::commit(65_535),
        Move::abort(3),
        Move::abort(1_000),
    ];
    gives(Asked::new(0, 256).of(&two_lot::table(), &state.words()), &list, 7);
}

// Catches a rule that is listed although it has no id or no room, or is left out although it has, and
// one whose fault hides the others: 11 and 12 on both sides of their limits.
#[test]
fn rules_without_an_id_or_room_are_left_out_whole() {
    let begin = |bodies: usize| {
        let rest = vec![Atom::constant(role::BODY, 0, 1); bodies];
        [vec![Atom::consume(0), Atom::consume(0), Atom::BEGIN], rest].concat()
    };
    let emit = |emits: usize| [vec![Atom::consume(0)], vec![Atom::constant(role::EMIT, 0, 1); emits]].concat();
    // They leave 1 fewer, as many, 1 more, and then 1, 2 and 3 more.
    let rules = vec![begin(0), begin(1), begin(2), emit(2), emit(3), emit(4)];
    let table = Table { global: 2, local: 0, merge: 0, rules }.words();
    let grows = [-1, 0, 1, 1, 2, 3];
    for next in [65_534, 65_535, 65_536] {
        for n in [1_020, 1_021, 1_022, 1_023, 1_024] {
            let mut entries = vec![Entry::message(0, 1, 9); n];
            entries[7] = Entry::message(0, 0, 9);
            entries[n - 1] = Entry::message(0, 0, 9);
            let last = n as u32 - 1;
            let mut list = Vec::new();
            for rule in 0..6 {
                let begins = rule < 3;
                if n as i32 + grows[rule] > 1_024 || (begins && next == 65_536) {
                    continue;
                }
                let picks: [&[u32]; 2] = if begins { [&[7, last], &[last, 7]] } else { [&[7], &[last]] };
                list.extend(picks.map(|picks| Move::react(rule as u32, picks)));
            }
            gives(Asked::new(0, 256).of(&table, &State { next, entries }.words()), &list, list.len() as u64);
        }
    }
}

/// The whole list in pages of this count.
fn in_pages(table: &[u32], state: &[u32], count: u32) -> Vec<u32> {
    let mut list = Vec::new();
    loop {
        let (page, words) = Asked::new(list.len() as u64 / 5, count).of_long(table, state);
        assert_eq!(page.answer, Answer::Accepted(words.len() as u32));
        list.extend(&words);
        if words.is_empty() {
            assert_eq!(page.length, list.len() as u64 / 5);
            return list;
        }
        assert!(words.len() == 5 * count.min(256) as usize || page.length == list.len() as u64 / 5, "a short page");
    }
}

/// The head and picks of each move rise.
fn rises(words: &[u32]) -> bool {
    words.chunks_exact(5).is_sorted_by(|one, next| one < next)
}

// Catches any difference from the model on states of all kinds, a length that is not that of the pages,
// a move that is listed twice or lost between two pages, and another order.
#[test]
fn pages_together_are_the_list() {
    let mut random = Random::new(901);
    let mut coverage = Coverage::default();
    for round in 0..4_000 {
        let (table, state) = listed(&mut random, round);
        let (table_words, state_words) = (table.words(), state.words());
        // The model copies the state for each move that it makes.
        let most = 200_000 / (20 + state.entries.len() as u64);
        let Some(list) = model::enabled_moves(&table_words, &state_words, most).unwrap() else { continue };
        // Small pages of long lists take long.
        let count = random.pick(if list.len() < 50 { &[1, 2, 5, 9] } else { &[64, 255, 256, 257, u32::MAX] });
        let paged = in_pages(&table_words, &state_words, count);
        assert_eq!(paged, words(&list), "{table:?} {state:?}");
        assert!(rises(&paged), "{table:?} {state:?}");
        coverage.add(met(&mut random, &table, &state, &list));
    }
    coverage.has_all(40);
}

// Catches a page that begins or ends one move off: every first place and every count of short lists.
#[test]
fn every_page_of_short_lists() {
    let mut random = Random::new(902);
    let mut lists = 0;
    for round in 0..2_000 {
        let (table, state) = listed(&mut random, round);
        let (table, state) = (table.words(), state.words());
        let Some(list) = model::enabled_moves(&table, &state, 60).unwrap() else { continue };
        if !(5..=12).contains(&list.len()) {
            continue;
        }
        let length = list.len();
        for first in 0..length + 2 {
            for count in 0..length as u32 + 2 {
                let end = length.min(first + count as usize);
                let page = list.get(first..end).unwrap_or_default();
                gives(Asked::new(first as u64, count).of_long(&table, &state), page, length as u64);
            }
        }
        lists += 1;
    }
    assert!(lists > 100, "{lists}");
}

// Catches a listed move that is refused, and an accepted one that is not listed: every head that there
// is with every choice of four picks up to one past the last entry.
#[test]
fn a_move_is_listed_exactly_if_it_is_accepted() {
    let mut random = Random::new(903);
    let (mut listed, mut others, mut stopped) = (0, 0, 0);
    for round in 0..200 {
        let directed = round >= 120;
        let table = table(&mut random, if directed { Shape::EveryClass } else { Shape::Small });
        let mut state = if directed {
            // Transaction 1 with an abort mark and transaction 2, each with messages.
            let message = |id| Entry::message(id, random.between(table.global, table.ports() - 1), 5);
            let messages: Vec<Entry> = [1, 1, 2].map(message).to_vec();
            let marks = [Entry::member_mark(1, 1), Entry::abort_mark(1), Entry::member_mark(2, 2)];
            State { next: 3, entries: [messages, marks.to_vec()].concat() }
        } else {
            state(&mut random, &table, 4, true)
        };
        if state.next > 8 {
            state.next = 65_536;
        }
        let n = state.entries.len() as u32;
        let ids = (1..state.next.min(9)).chain(state.entries.iter().map(|entry| entry.owner)).chain([65_535, 65_536]);
        let ends = ids.flat_map(|id| [1 << 24 | id, 2 << 24 | id]);
        let heads = (0..=table.rules.len() as u32).chain(ends).chain([1 << 24, 2 << 24, 3 << 24]);
        let heads: BTreeSet<u32> = heads.collect();
        let (table, state) = (table.words(), state.words());
        let list = in_pages(&table, &state, 256);
        for head in heads {
            for picks in 0..(n + 1).pow(4) {
                let pick = |level: u32| picks / (n + 1).pow(level) % (n + 1);
                let mv = [head, pick(3), pick(2), pick(1), pick(0)];
                let found = list.chunks_exact(5).any(|other| other == mv);
                let number = library::make_move(&table, &state, &mv, &mut [0; STATE_TARGET]).number();
                assert_eq!(found, number == 0, "{mv:x?} of {table:x?} {state:x?}");
                listed += usize::from(found);
                others += usize::from(!found);
                stopped += usize::from(number == 18);
            }
        }
    }
    assert!(listed > 200 && others > 100_000 && stopped > 100, "{listed} {others} {stopped}");
}

/// One message for another: as many moves as there are messages.
fn turns(n: usize) -> ([Vec<u32>; 2], Vec<Move>) {
    let rule = vec![Atom::consume(0), Atom::received(role::EMIT, 0, 0)];
    let table = Table { global: 1, local: 0, merge: 0, rules: vec![rule] };
    let state = State { next: 1, entries: vec![Entry::message(0, 0, 7); n] };
    ([table.words(), state.words()], (0..n as u32).map(|place| Move::react(0, &[place])).collect())
}

// Catches a page of more than 256 moves, a count that is cut to fewer bits, a first place that is, and a
// sum of both that wraps.
#[test]
fn first_places_and_counts() {
    for n in [0, 1, 255, 256, 257, 1_024] {
        let ([table, state], list) = turns(n);
        let length = n as u64;
        let firsts = [0, 1, length.wrapping_sub(1), length, length + 1, length + 256, 1 << 32, 1 << 63];
        let nearly_all = [u64::MAX - 256, u64::MAX - 255, u64::MAX - 1, u64::MAX];
        for first in firsts.into_iter().chain(nearly_all) {
            for count in [0, 1, 254, 255, 256, 257, 300, 512, 65_536, 1 << 31, u32::MAX] {
                let from = usize::try_from(first).unwrap().min(n);
                let end = n.min(from + count.min(256) as usize);
                // The model goes through the whole list each time.
                let asked = Asked::new(first, count);
                let page = if n < 300 { asked.of(&table, &state) } else { asked.of_long(&table, &state) };
                gives(page, &list[from..end], length);
            }
        }
    }
}

// Catches a target that is asked for too much or too little, also where the page is short or empty, one
// that is written on 6, and words behind the page that are touched.
#[test]
fn targets_of_a_page() {
    for n in [0, 3, 260] {
        let ([table, state], list) = turns(n);
        for (count, words) in
            [(0, 0), (1, 5), (2, 10), (255, 1_275), (256, 1_280), (257, 1_280), (300, 1_280), (u32::MAX, 1_280)]
        {
            for first in [0, 2, n as u64, u64::MAX] {
                for room in [0, 1, 4, 5, 9, 10, 1_274, 1_275, 1_279, 1_280, 1_281, 2_050] {
                    let page = Asked { first, count, room }.of(&table, &state);
                    if room < words {
                        refused(page, 6);
                        continue;
                    }
                    let from = usize::try_from(first).unwrap().min(n);
                    gives(page, &list[from..n.min(from + words / 5)], n as u64);
                }
            }
        }
    }
}

// Catches refusals in another order: every set of faults, so each alone and each pair too.
#[test]
fn the_first_fault_counts() {
    for faults in fault_sets(&order::LIST_MOVES) {
        let has = |number| faults.contains(&number);
        let [table, state] = faulty_plant(&faults);
        for first in [0, 1, 2, u64::MAX] {
            let page = Asked { first, count: 3, room: if has(6) { 14 } else { 15 } }.of(&table, &state);
            match faults.first() {
                Some(&number) => refused(page, number),
                None => gives(page, lists_a()[0].get(first as usize..).unwrap_or_default(), 2),
            }
            // Without a count there is no target to be too short.
            let none = Asked { first, count: 0, room: 0 }.of(&table, &state);
            match faults.first() {
                Some(&number) if number != 6 => refused(none, number),
                _ => gives(none, &[], 2),
            }
        }
    }
}

// Catches a table or state that passes here though its check refuses it, and one that is listed anyway.
#[test]
fn damaged_tables_and_states() {
    let mut random = Random::new(904);
    let mut planted = [0; 5];
    for round in 0..6_000 {
        let (table, state) = listed(&mut random, round);
        let asked = Asked::new(random.word64() >> random.below(64), random.pick(&[0, 1, 256]));
        let ask = |table: &[u32], state: &[u32], number| refused(asked.of(table, state), number);
        ask_faulty(&mut random, &table, &state, &mut planted, ask);
    }
    assert!(planted[1..].iter().all(|&count| count > 400), "{planted:?}");
}

// Catches a trap on noise in any part.
#[test]
fn noise_gets_one_answer() {
    let mut random = Random::new(905);
    let mut numbers = [0; 7];
    for _ in 0..20_000 {
        let parts = noisy(&mut random);
        let room = random.pick(&[0, 1, 5, 1_279, 1_280, 1_281]);
        let asked = Asked { first: random.word64() >> random.below(64), count: random.edge_word(), room };
        numbers[asked.of(&parts[0], &parts[1]).0.answer.number() as usize] += 1;
    }
    for number in [0, 1, 2, 3, 4, 6] {
        assert!(numbers[number] > 200, "{number}: {numbers:?}");
    }
    let long: Vec<u32> = (0..100_000).map(|_| random.word()).collect();
    refused(Asked::new(0, 1).of(&long, &two_lot::start()), 1);
    refused(Asked::new(0, 1).of(&two_lot::table(), &long), 3);
}

/// The place of each rule's first reaction in the list, and the one behind the last: the length without
/// the rules from there on, less the ends.
fn borders(table: &Table, state: &[u32]) -> Vec<u64> {
    let length = |rules: usize| {
        let cut = Table { rules: table.rules[..rules].to_vec(), ..*table };
        Asked::new(0, 0).of_long(&cut.words(), state).0.length
    };
    (0..=table.rules.len()).map(|rules| length(rules) - length(0)).collect()
}

/// A page of 256 moves that rise, each of which is made.
fn full_page(table: &[u32], state: &[u32], first: u64, length: u64) -> Vec<u32> {
    let (page, words) = Asked::new(first, 256).of_long(table, state);
    assert_eq!(page, Page { answer: Answer::Accepted(words.len() as u32), length }, "from {first}");
    assert_eq!(words.len() as u64, 5 * 256.min(length - first), "from {first}");
    assert!(rises(&words), "from {first}: {words:x?}");
    for mv in words.chunks_exact(5) {
        assert!(makes(table, state, mv), "{mv:x?} from {first}");
    }
    words
}

// Catches a count or a place that is wrong only where lists are long: 64 rules of four consumes on 1,024
// entries, in pages anywhere and across the borders between rules, which pages to either side meet.
#[test]
fn long_lists() {
    let mut random = Random::new(906);
    for (class, open, ports, marked) in [
        (0, 0, [8, 4, 4], 0),
        (0, 0, [200, 0, 0], 0),
        (1, 300, [8, 4, 4], 0),
        (1, 3, [1, 12, 0], 0),
        (1, 1, [0, 1, 0], 0),
        (1, 600, [0, 1, 0], 0),
        (2, 300, [8, 4, 4], 0),
        (2, 900, [0, 0, 1], 0),
        (1, 300, [8, 4, 4], 100),
        (1, 3, [1, 12, 0], 2),
        (2, 300, [8, 4, 4], 250),
        (2, 900, [0, 0, 1], 300),
    ] {
        let table = fours(&mut random, ports, class);
        let mut state = spread(&mut random, &table, class, 1_024, open);
        // So many transactions get an abort mark in place of their first message.
        for id in 1..=marked {
            let message = |entry: &&mut Entry| entry.owner == id && entry.kind == kind::MESSAGE;
            if let Some(entry) = state.entries.iter_mut().find(message) {
                *entry = Entry::abort_mark(id);
            }
        }
        let borders = borders(&table, &state.words());
        let (table, state) = (table.words(), state.words());
        let length = Asked::new(0, 0).of_long(&table, &state).0.length;
        assert!(length > 1_000 && borders[64] <= length, "{length} {borders:?}");
        for _ in 0..40 {
            full_page(&table, &state, random.word64() % length, length);
        }
        let mut crossed = 0;
        for rule in 1..64 {
            let border = borders[rule];
            let first = border.saturating_sub(1 + u64::from(random.below(255)));
            let words = full_page(&table, &state, first, length);
            let (before, behind) = words.split_at((5 * (border - first) as usize).min(words.len()));
            assert!(before.chunks_exact(5).all(|mv| mv[0] < rule as u32), "rule {rule} before {border}");
            assert!(behind.chunks_exact(5).all(|mv| mv[0] >= rule as u32), "before rule {rule} behind {border}");
            assert!(full_page(&table, &state, border.min(length - 1), length).starts_with(behind));
            crossed += usize::from(!before.is_empty() && !behind.is_empty());
        }
        assert!(crossed > 40, "{crossed}");
        full_page(&table, &state, length - 1, length);
        full_page(&table, &state, length.saturating_sub(256), length);
        gives(Asked::new(length, 256).of_long(&table, &state), &[], length);
    }
}

// Catches transactions that are counted together, and ids that are looked for in too few words: as many
// as a state can hold, far apart, and messages in the first and the last of them.
#[test]
fn as_many_transactions_as_fit() {
    let rules = vec![vec![Atom::consume(0), Atom::consume(1)]];
    let table = Table { global: 0, local: 2, merge: 0, rules }.words();
    let ids: Vec<u32> = (1..=1_020).map(|place| 64 * place).collect();
    let [first, .., other, last] = ids[..] else { unreachable!() };
    let mut entries: Vec<Entry> = ids.iter().map(|&id| Entry::member_mark(id, id)).collect();
    for (owner, port) in [(first, 0), (last, 1), (other, 1), (last, 0)] {
        entries.push(Entry::message(owner, port, 5));
    }
    let state = State { next: 65_281, entries }.words();
    let commits = ids[1..1_018].iter().map(|&id| Move::commit(id));
    let list: Vec<Move> = [Move::react(0, &[1_023, 1_021])].into_iter().chain(commits).collect();
    assert_eq!(in_pages(&table, &state, 256), words(&list));
    gives(Asked::new(0, 256).of(&table, &state), &list[..256], 1_018);
    gives(Asked::new(1_017, 256).of(&table, &state), &list[1_017..], 1_018);
}

/// The move at a place of the list of 64 rules that each take any four of 1,024 messages: the pick of a
/// consume is found by dividing by the choices that those behind it leave.
fn of_place(place: u64) -> [u32; 5] {
    let mut left = place;
    let mut widths = [1_024 * 1_023 * 1_022 * 1_021, 1_023 * 1_022 * 1_021, 1_022 * 1_021, 1_021, 1].into_iter();
    let mut digit = || {
        let width = widths.next().unwrap();
        let digit = left / width;
        left %= width;
        digit as usize
    };
    let head = digit() as u32;
    let mut places: Vec<u32> = (0..1_024).collect();
    let picks = [(); 4].map(|()| places.remove(digit()));
    [head, picks[0], picks[1], picks[2], picks[3]]
}

// Catches a length or a place that does not fit 32 bits: the longest list that there is, whose moves are
// known without a list.
#[test]
fn the_longest_list() {
    let mut random = Random::new(907);
    let table = fours(&mut random, [1, 0, 0], 0).words();
    let state = State { next: 65_536, entries: vec![Entry::message(0, 0, 1); 1_024] }.words();
    let length = 64 * 1_024 * 1_023 * 1_022 * 1_021;
    let mut firsts: Vec<u64> = (0..100).map(|_| random.word64() % length).collect();
    firsts.extend([0, 1 << 32, 1 << 40, length / 64 - 100, length / 2 - 1, length - 300, length - 256, length - 1]);
    for first in firsts {
        let words = full_page(&table, &state, first, length);
        let expected = (first..length).take(256).flat_map(of_place);
        assert!(words.iter().copied().eq(expected), "from {first}");
    }
    gives(Asked::new(length, 256).of_long(&table, &state), &[], length);
}
