//! The state check: library, model and plain code on right, damaged and random words.
mod common;

use common::check_state;
use harness::answer::Answer;
use harness::generate::state_faults::StateFault;
use harness::generate::states::state;
use harness::generate::table_faults::TableFault;
use harness::generate::tables::{table, Shape};
use harness::random::Random;
use harness::two_lot;
use harness::words::{kind, Entry, State, Table};

const SHAPES: [Shape; 2] = [Shape::Any, Shape::Small];
const SIZES: [usize; 4] = [4, 12, 100, 1_024];

fn accepts(table: &[u32], state: &[u32]) {
    assert_eq!(check_state(table, state), Answer::Accepted(0), "{}", common::shown(&[("state", state)]));
}

fn refuses(table: &[u32], state: &[u32], number: u32) {
    assert_eq!(check_state(table, state), Answer::Refused(number), "{}", common::shown(&[("state", state)]));
}

fn case(random: &mut Random, round: usize) -> (Table, State) {
    let table = table(random, SHAPES[round % 2]);
    let open = random.chance(85);
    let most = random.pick(&SIZES);
    let state = state(random, &table, most, open);
    (table, state)
}

// Catches a check that refuses right states: merged or aborting transactions, gaps between ids,
// any order of entries, the largest next id.
#[test]
fn random_right_states_are_accepted() {
    let mut random = Random::new(201);
    let (mut merged, mut aborting, mut large, mut last) = (0, 0, 0, 0);
    for round in 0..6_000 {
        let (table, state) = case(&mut random, round);
        accepts(&table.words(), &state.words());
        merged += usize::from(
            state.entries.iter().any(|entry| entry.kind == kind::MEMBER_MARK && entry.value != entry.owner),
        );
        aborting += usize::from(state.entries.iter().any(|entry| entry.kind == kind::ABORT_MARK));
        large += usize::from(state.entries.len() > 900);
        last += usize::from(state.next == 65_536);
    }
    assert!(merged > 500 && aborting > 500 && large > 50 && last > 500, "{merged} {aborting} {large} {last}");
}

// Catches a clause of the state rules that is not checked, or is given the other number.
#[test]
fn each_planted_fault_has_its_number() {
    let mut random = Random::new(202);
    for &fault in StateFault::ALL {
        let mut planted = 0;
        for round in 0..20_000 {
            if planted == 60 {
                break;
            }
            let (table, state) = case(&mut random, round);
            if let Some(words) = fault.plant(&mut random, &table, &state) {
                let answer = check_state(&table.words(), &words);
                assert_eq!(
                    answer,
                    Answer::Refused(fault.number()),
                    "{fault:?} {}",
                    common::shown(&[("state", &words)])
                );
                planted += 1;
            }
        }
        assert_eq!(planted, 60, "{fault:?} was not exercised");
    }
}

// Catches a state fault that is reported before the table's.
#[test]
fn the_table_is_checked_first() {
    let mut random = Random::new(203);
    let mut pairs = 0;
    for round in 0..3_000 {
        let (table, state) = case(&mut random, round);
        let first = random.pick(TableFault::ALL);
        let second = random.pick(StateFault::ALL);
        let (Some(bad_table), Some(bad_state)) =
            (first.plant(&mut random, &table), second.plant(&mut random, &table, &state))
        else {
            continue;
        };
        refuses(&bad_table, &state.words(), first.number());
        refuses(&bad_table, &bad_state, first.number());
        pairs += 1;
    }
    assert!(pairs > 500, "{pairs}");
}

// Catches 4 before 3: a wrong count, next id or length beside a wrong entry.
#[test]
fn sizes_are_checked_before_entries() {
    let mut random = Random::new(204);
    let mut pairs = 0;
    for round in 0..6_000 {
        let (table, state) = case(&mut random, round);
        let fault = random.pick(StateFault::ALL);
        let Some(mut words) = fault.plant(&mut random, &table, &state).filter(|_| fault.number() == 4) else {
            continue;
        };
        match random.below(4) {
            0 => words[1] = random.pick(&[0, 65_537, u32::MAX]),
            1 => words.push(0),
            2 => {
                words.pop();
            }
            _ => words[0] = u32::MAX,
        }
        refuses(&table.words(), &words, 3);
        pairs += 1;
    }
    assert!(pairs > 500, "{pairs}");
}

// Catches any other difference near right states: one or two changed words.
#[test]
fn changed_words_get_one_answer() {
    let mut random = Random::new(205);
    let mut answers = [0; 5];
    for round in 0..40_000 {
        let (table, state) = case(&mut random, round);
        let mut words = state.words();
        for _ in 0..random.between(1, 2) {
            let at = random.index(words.len());
            words[at] = match random.below(5) {
                0 => words[at] ^ 1 << random.below(32),
                1 => words[at].wrapping_add(random.below(3)).wrapping_sub(1),
                2 => words[random.index(words.len())],
                3 => kind::MEMBER_MARK << 24 | random.below(20),
                _ => random.edge_word(),
            };
        }
        answers[check_state(&table.words(), &words).number() as usize] += 1;
    }
    assert!(answers[0] > 1_000 && answers[3] > 1_000 && answers[4] > 1_000, "{answers:?}");
}

// Catches a read past the end and a count that wraps: short lists of small and huge words.
#[test]
fn short_lists_get_one_answer() {
    let tables = [two_lot::table(), vec![0, 0, 0, 0, 0], vec![1, 0, 255, 0, 0]];
    let mut random = Random::new(206);
    for length in 0..=12 {
        for round in 0..8_000 {
            let mut words: Vec<u32> = (0..length).map(|_| random.edge_word()).collect();
            if random.chance(70) && length >= 2 {
                let n = (length - 2) / 2;
                words[0] = n as u32;
                words[1] = random.between(1, 6);
                for at in 0..n {
                    words[2 + at] = random.below(4);
                    words[2 + n + at] = random.below(5) << 24 | random.below(5) << 16 | random.below(5);
                }
            }
            let answer = check_state(&tables[round % 3], &words);
            assert!(length >= 2 || answer == Answer::Refused(3));
        }
    }
}

// Catches a trap or a slow path on long noise, with counts of any kind.
#[test]
fn noise_gets_one_answer() {
    let table = two_lot::table();
    let mut random = Random::new(207);
    for length in [13, 100, 2_050, 2_051, 2_052, 100_000] {
        for _ in 0..40 {
            let mut words: Vec<u32> = (0..length).map(|_| random.word()).collect();
            if random.chance(50) {
                words[0] = (length as u32 - 2) / 2;
                words[1] = random.between(1, 65_536);
            }
            check_state(&table, &words);
        }
    }
}

// Catches limits that are off by one, and a state type whose empty value is refused.
#[test]
fn limits_of_a_state() {
    let table = two_lot::table();
    accepts(&table, &State::empty().words());
    accepts(&table, &two_lot::start());
    accepts(&table, &[0, 65_536]);
    refuses(&table, &[0, 65_537], 3);
    refuses(&table, &[0, 0], 3);
    refuses(&table, &[0], 3);
    refuses(&table, &[], 3);
    let full = |n| State { next: 1, entries: vec![Entry::message(0, 1, 65_535); n] }.words();
    accepts(&table, &full(1_024));
    refuses(&table, &full(1_025), 3);
    // The largest id, alone in its transaction; and the same with a next id that does not pass it.
    accepts(&table, &[1, 65_536, 65_535, 0x0300_FFFF]);
    refuses(&table, &[1, 65_535, 65_535, 0x0300_FFFF], 4);
    refuses(&table, &[1, 65_536, 65_536, 0x0300_0000], 4);
    // Full of transactions, one member each.
    let members: Vec<Entry> = (1..=1_024).map(|id| Entry::member_mark(id, id)).collect();
    accepts(&table, &State { next: 1_025, entries: members.clone() }.words());
    refuses(&table, &State { next: 1_024, entries: members }.words(), 4);
}

// Catches a half-made merge that passes: a member's mark moved, its messages left behind.
#[test]
fn a_half_made_merge_is_refused() {
    let table = two_lot::table();
    let whole = [Entry::member_mark(1, 1), Entry::member_mark(1, 2), Entry::message(1, 3, 9)];
    accepts(&table, &State { next: 3, entries: whole.to_vec() }.words());
    let half = [Entry::member_mark(1, 1), Entry::member_mark(1, 2), Entry::message(2, 3, 9)];
    refuses(&table, &State { next: 3, entries: half.to_vec() }.words(), 4);
}

// Catches a generator or decoder that loses something: words to values and back.
#[test]
fn words_round_trip() {
    let mut random = Random::new(208);
    for round in 0..500 {
        let (_, state) = case(&mut random, round);
        assert_eq!(State::from_words(&state.words()), Some(state));
    }
}
