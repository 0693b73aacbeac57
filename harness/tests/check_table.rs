//! The table check: library, model and plain code on right, damaged and random words.
mod common;

use common::check_table;
use harness::answer::Answer;
use harness::generate::table_faults::TableFault;
use harness::generate::tables::{table, Shape};
use harness::random::Random;
use harness::two_lot;
use harness::words::{role, Atom, Table};

const SHAPES: [Shape; 3] = [Shape::Any, Shape::Small, Shape::Closable];

fn accepts(words: &[u32]) {
    assert_eq!(check_table(words), Answer::Accepted(0));
}

fn refuses(words: &[u32], number: u32) {
    assert_eq!(check_table(words), Answer::Refused(number), "{}", common::shown(&[("table", words)]));
}

// Catches a check that refuses right tables: a wrong limit, a wrong order of roles, a class
// that is not allowed to emit.
#[test]
fn random_right_tables_are_accepted() {
    let mut random = Random::new(101);
    let (mut largest, mut full, mut empty) = (0, 0, 0);
    for round in 0..6_000 {
        let table = table(&mut random, SHAPES[round % 3]);
        accepts(&table.words());
        largest = largest.max(table.atoms());
        full += usize::from(table.ports() == 256);
        empty += usize::from(table.rules.is_empty());
    }
    assert!(largest > 490 && full > 100 && empty > 100, "{largest} {full} {empty}");
}

// Catches a clause of the table rules that is not checked, or is given the other number.
#[test]
fn each_planted_fault_has_its_number() {
    let mut random = Random::new(102);
    for &fault in TableFault::ALL {
        let mut planted = 0;
        for round in 0..20_000 {
            if planted == 60 {
                break;
            }
            let table = table(&mut random, SHAPES[round % 2]);
            if let Some(words) = fault.plant(&mut random, &table) {
                assert_eq!(
                    check_table(&words),
                    Answer::Refused(fault.number()),
                    "{fault:?} {}",
                    common::shown(&[("table", &words)])
                );
                planted += 1;
            }
        }
        assert_eq!(planted, 60, "{fault:?} was not exercised");
    }
}

// Catches any other difference near right tables: one or two changed words.
#[test]
fn changed_words_get_one_answer() {
    let mut random = Random::new(103);
    let mut answers = [0; 3];
    for round in 0..60_000 {
        let mut words = table(&mut random, SHAPES[round % 3]).words();
        for _ in 0..random.between(1, 2) {
            let at = random.index(words.len());
            words[at] = match random.below(4) {
                0 => words[at] ^ 1 << random.below(32),
                1 => words[at].wrapping_add(random.below(3)).wrapping_sub(1),
                2 => words[random.index(words.len())],
                _ => random.edge_word(),
            };
        }
        answers[check_table(&words).number() as usize] += 1;
    }
    assert!(answers.iter().all(|&count| count > 1_000), "{answers:?}");
}

// Catches a read past the end and a size that wraps: short lists of small and huge words.
#[test]
fn short_lists_get_one_answer() {
    const FIVE: [u32; 6] = [0, 1, 2, 256, 257, u32::MAX];
    for number in 0..6usize.pow(5) {
        let words: Vec<u32> = (0..5).map(|digit| FIVE[number / 6usize.pow(digit) % 6]).collect();
        let sum: u64 = words[..3].iter().map(|&size| u64::from(size)).sum();
        let right = sum <= 256 && words[3] <= 64 && words[4] == 0;
        match (right, words[3]) {
            (true, 0) => accepts(&words),
            (true, _) => refuses(&words, 2),
            (false, _) => refuses(&words, 1),
        }
    }
    let mut random = Random::new(104);
    for length in 0..=12 {
        for _ in 0..8_000 {
            let mut words: Vec<u32> = (0..length).map(|_| random.edge_word()).collect();
            if random.chance(70) && length >= 5 {
                // Sizes that fit the length, so that the atoms are looked at.
                words[..3].iter_mut().for_each(|size| *size %= 4);
                words[3] %= 4;
                words[4] = (length as u32 - 5) / 2;
            }
            let answer = check_table(&words);
            assert!(length >= 5 || answer == Answer::Refused(1));
        }
    }
}

// Catches a trap or a slow path on long noise, with sizes of any kind.
#[test]
fn noise_gets_one_answer() {
    let mut random = Random::new(105);
    for length in [13, 100, 1_029, 1_030, 5_000, 100_000] {
        for _ in 0..40 {
            let mut words: Vec<u32> = (0..length).map(|_| random.word()).collect();
            if random.chance(50) {
                words[..5].copy_from_slice(&[3, 2, 1, 4, (length as u32 - 5) / 2]);
            }
            check_table(&words);
        }
    }
}

// Catches limits that are off by one: each limit, and one past it.
#[test]
fn limits_of_a_table() {
    accepts(&[0, 0, 0, 0, 0]);
    accepts(&[256, 0, 0, 0, 0]);
    refuses(&[256, 1, 0, 0, 0], 1);
    refuses(&[0, 0, 257, 0, 0], 1);
    refuses(&[u32::MAX, 1, 1, 0, 0], 1);
    refuses(&[0, 0, 0, 1, 0], 2);
    refuses(&[0, 0, 0, 65, 0], 1);
    refuses(&[], 1);

    let consume = Atom::consume(0);
    let emit = Atom::received(role::EMIT, 0, 0);
    let full = |rules: usize, atoms: usize| {
        let mut rule = vec![emit; atoms];
        rule[0] = consume;
        Table { global: 1, local: 0, merge: 0, rules: vec![rule; rules] }.words()
    };
    accepts(&full(64, 8));
    accepts(&full(32, 16));
    refuses(&full(65, 1), 1);
    refuses(&full(57, 9), 1);
    refuses(&full(1, 17), 2);
    // The last port of 256 is usable.
    accepts(&Table { global: 256, local: 0, merge: 0, rules: vec![vec![Atom::consume(255)]] }.words());
    accepts(&Table { global: 0, local: 0, merge: 256, rules: vec![vec![Atom::consume(255); 4]] }.words());
}

// Catches a refusal of 01's own example, and a cut table with bad atoms that is called 2.
#[test]
fn the_two_lot_plant() {
    let words = two_lot::table();
    accepts(&words);
    for cut in 0..words.len() {
        refuses(&words[..cut], 1);
    }
    for at in 5..words.len() {
        let mut bad = words.clone();
        bad[at] = u32::MAX;
        refuses(&bad, 2);
        bad.pop();
        refuses(&bad, 1);
    }
}

// Catches a generator or decoder that loses something: words to values and back.
#[test]
fn words_round_trip() {
    let mut random = Random::new(106);
    for round in 0..500 {
        let table = table(&mut random, SHAPES[round % 3]);
        assert_eq!(Table::from_words(&table.words()), Some(table));
    }
}
