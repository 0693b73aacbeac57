//! Stack of the public calls at full size.
mod common;

use std::fs;
use std::path::Path;
use std::thread;

use common::{header_comment, Alone, Asked};
use harness::answer::{page_words, Answer, Page, Unattended};
use harness::generate::plants::PLANTS;
use harness::generate::workloads::{fours, global_log, members, merge_log, mixed, single_moves, spread, table};
use harness::markdown::{prose, rows};
use harness::pairs::{
    self, Pair, CHECK_STATE, CHECK_TABLE, LIST_MOVES, MAKE_MOVE, PREVIEW, RUN, RUN_UNATTENDED, SERIALIZE,
};
use harness::random::Random;
use harness::words::{act, log_from_words, log_words, State, Table, STATE_TARGET};
use harness::{library, plain, stack, ROOT};

/// What README and the header promise to be enough.
const STACK: usize = 256 << 10;

/// A call and accepted input of full size: a table, a state, and a move, log, page or budget.
struct Call {
    pair: Pair,
    inputs: Vec<[Vec<u32>; 3]>,
}

/// A page from the middle of a list, for each class of rules.
fn pages(random: &mut Random) -> Vec<[Vec<u32>; 3]> {
    let page = |(class, open)| {
        let table = fours(random, [8, 4, 4], class);
        let state = spread(random, &table, class, 1_024, open);
        let (table, state) = (table.words(), state.words());
        let middle = plain::list_moves(&table, &state, 0, 0, &mut []).length / 2;
        [table, state, page_words(middle, 256)]
    };
    [(0, 0), (1, 300), (2, 300)].map(page).to_vec()
}

/// The largest budget on each plant that never rests.
fn budgets(random: &mut Random) -> Vec<[Vec<u32>; 3]> {
    let plants = PLANTS.map(|plant| {
        let (table, state) = (plant.make)(random, 64, 1_024);
        [table.words(), state.words(), vec![1_024]]
    });
    plants.to_vec()
}

fn calls() -> [Call; 8] {
    let mut random = Random::new(802);
    let full = table(64, 512);
    let input = |state: State, third: Vec<u32>| [full.words(), state.words(), third];
    let states = vec![input(mixed(&[], 1_024), vec![]), input(members(1_024), vec![])];
    let moves = single_moves(&full, 1_022).into_iter().map(|(_, state, mv)| input(state, mv.words()));
    let moves: Vec<_> = moves.collect();
    let logs = [merge_log(&mut random, &full, 1_024, 1_024), global_log(&mut random, &full, 1_024, 1_024)];
    let logs: Vec<_> = logs.into_iter().map(|(start, log)| input(start, log_words(&log))).collect();
    let calls = [
        (CHECK_TABLE, states.clone()),
        (CHECK_STATE, states),
        (MAKE_MOVE, moves.clone()),
        (PREVIEW, moves),
        (RUN, logs.clone()),
        (SERIALIZE, logs),
        (LIST_MOVES, pages(&mut random)),
        (RUN_UNATTENDED, budgets(&mut random)),
    ];
    calls.map(|(pair, inputs)| Call { pair, inputs })
}

/// The call in a thread whose stack ends in a guard page: an overflow ends the test.
fn on_small_stack<T: Send>(call: impl FnOnce() -> T + Send) -> T {
    thread::scope(|scope| thread::Builder::new().stack_size(STACK).spawn_scoped(scope, call).unwrap().join().unwrap())
}

// Catches a call that needs more stack than is promised: each at full size, accepted.
#[test]
fn every_call_runs_in_256_kilobytes() {
    for Call { pair: Pair { name, ours, rust }, inputs } in calls() {
        for [table, state, third] in inputs {
            let (mut expected, mut target) = (pairs::target(), pairs::target());
            let answer = rust(&table, &state, &third, &mut expected);
            assert_eq!(answer.number(), 0, "{name}");
            assert_eq!(on_small_stack(|| ours(&table, &state, &third, &mut target)), answer, "{name}");
            assert!(target == expected, "{name}");
        }
    }
}

// Catches figures in README and the header that are not those of this archive, or not the same. A
// kilobyte more or less is not told apart by the measure.
#[test]
fn the_stated_figures_are_the_measured_ones() {
    let readme = fs::read_to_string(Path::new(ROOT).join("README.md")).unwrap();
    let rows = rows(&prose(&readme), "| call | stack |");
    assert_eq!(rows.len(), calls().len());
    for (Call { pair: Pair { name, ours, .. }, inputs }, row) in calls().into_iter().zip(rows) {
        let used = |[table, state, third]: [Vec<u32>; 3]| {
            let mut target = pairs::target();
            stack::used(|| {
                ours(&table, &state, &third, &mut target);
            })
        };
        let bytes = inputs.into_iter().map(used).max().unwrap();
        assert_eq!(row[0], format!("`{name}`"));
        assert!(header_comment(name).ends_with(&format!("Stack: {}.", row[1])), "{name}: {}", header_comment(name));
        let stated = 1e3 * row[1].strip_suffix(" KB").unwrap().parse::<f64>().unwrap();
        assert!((0.9 * stated - 1e3..stated + 1e3).contains(&(bytes as f64)), "{name}: {bytes} bytes, not {}", row[1]);
    }
}

// Catches workloads that the implementations answer differently or refuse, also where the
// benchmark is not run.
#[test]
fn workloads_are_accepted() {
    let mut random = Random::new(803);
    for (rules, atoms) in [(7, 24), (16, 128), (64, 512)] {
        let table = table(rules, atoms);
        let words = table.words();
        assert_eq!(common::check_table(&words).number(), 0);
        for n in [16, 128] {
            assert_eq!(common::check_state(&words, &members(n).words()).number(), 0);
            for (act, state, mv) in single_moves(&table, n) {
                assert_eq!(common::make_move(&words, &state.words(), &mv.words()).0.number(), 0, "{act}");
                assert_eq!(common::preview(&words, &state.words(), &mv.words()).number, 0, "{act}");
            }
            for k in [16, 128] {
                for (start, log) in [merge_log(&mut random, &table, n, k), global_log(&mut random, &table, n, k)] {
                    assert_eq!(log.len(), k);
                    let (start, log) = (start.words(), log_words(&log));
                    assert_eq!(common::run(&words, &start, &log).0.number(), 0);
                    assert_eq!(common::serialize(&words, &start, &log).0.number(), 0);
                }
            }
        }
    }
}

// Catches states for the list that are refused or whose lists are too short for a page.
#[test]
fn lists_are_long() {
    let mut random = Random::new(805);
    for (class, open) in [(0, 0), (1, 300), (2, 300)] {
        for n in [512, 1_024] {
            let table = fours(&mut random, [8, 4, 4], class);
            let state = spread(&mut random, &table, class, n, open * n as u32 / 1_024);
            let page = Asked::new(0, 256).of_long(&table.words(), &state.words()).0;
            assert_eq!(page, Page { answer: Answer::Accepted(1_280), length: page.length });
            assert_eq!((table.atoms(), state.entries.len()), (512, n));
        }
    }
}

/// What the moves of a log are made by, each once: rules, and the two ends.
fn made_by(table: &Table, log: &[harness::words::Move]) -> Vec<String> {
    let mut made: Vec<String> = log
        .iter()
        .map(|mv| match mv.kind {
            act::REACT => format!("rule {} from the end", table.rules.len() as u32 - mv.number),
            act::COMMIT => "commit".into(),
            _ => "abort".into(),
        })
        .collect();
    made.sort();
    made.dedup();
    made
}

// Catches plants for the benchmark that come to rest, that the implementations leave alone differently, whose entries
// do not stay about as many, or that do not make the moves that they are named for.
#[test]
fn plants_never_rest() {
    let mut random = Random::new(807);
    for plant in PLANTS {
        for (rules, n) in [(7, 16), (64, 16), (7, 128), (64, 128), (7, 1_024), (64, 1_024)] {
            let (table, state) = (plant.make)(&mut random, rules, n);
            let (words, start) = (table.words(), state.words());
            let (alone, log_words_made) = Alone::new(1_024).of_long(&words, &start);
            assert_eq!(alone, Unattended { answer: Answer::Accepted(5_121), moves: 1_024, still: false });
            let log = log_from_words(&log_words_made).unwrap();
            for moves in (0..=1_024).step_by(64).chain(1..9) {
                let mut target = [0; STATE_TARGET];
                library::run(&words, &start, &log_words(&log[..moves]), &mut [0; 4], &mut target);
                let entries = target[0] as usize;
                assert!((n / 2..=n).contains(&entries), "{} with {rules} of {n}: {entries}", plant.name);
            }
            let made = made_by(&table, &log);
            let wanted = match plant.name {
                "merges" => 3,
                "commits" | "aborts" => 2,
                _ => 7.min(n / 4),
            };
            assert!(made.len() >= wanted, "{} with {rules} of {n}: {made:?}", plant.name);
        }
    }
}
