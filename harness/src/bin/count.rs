//! One log, one move, a page of one list, or one plant left alone, ten times through a call and ten times through its
//! plain counterpart: run it under `valgrind --tool=callgrind` to count the instructions of both. Or the bytes of an
//! input, to count those of the program.
use std::env::args;
use std::hint::black_box;
use std::io::{stdout, Write};

use harness::answer::page_words;
use harness::generate::plants::plant;
use harness::generate::workloads::{fours, global_log, merge_log, single_moves, spread, table};
use harness::pairs::{self, Pair, LIST_MOVES, MAKE_MOVE, PREVIEW, RUN, RUN_UNATTENDED, SERIALIZE};
use harness::random::Random;
use harness::words::log_words;
use harness::{plain, program};

const CALLS: usize = 10;

/// Table, state, and log, move, page or budget.
type Input = [Vec<u32>; 3];

/// The log of a run, of this kind.
fn log(kind: &str, entries: usize, moves: usize) -> Input {
    let make = if kind == "merges" { merge_log } else { global_log };
    let table = table(64, 512);
    let (start, log) = make(&mut Random::new(801), &table, entries, moves);
    [table.words(), start.words(), log_words(&log)]
}

/// A move of this kind.
fn single(kind: &str, entries: usize) -> Input {
    let table = table(64, 512);
    let of_kind = |(act, ..): &(&str, _, _)| *act == kind;
    let (_, state, mv) = single_moves(&table, entries).into_iter().find(of_kind).expect("a kind of move");
    [table.words(), state.words(), mv.words()]
}

/// A page from the middle of a list of this kind; no moves for its length alone.
fn page(kind: &str, entries: usize, moves: usize) -> Input {
    let (class, open) = if kind == "local" { (1, 300 * entries as u32 / 1_024) } else { (0, 0) };
    let mut random = Random::new(804);
    let table = fours(&mut random, [8, 4, 0], class);
    let (state, table) = (spread(&mut random, &table, class, entries, open).words(), table.words());
    let middle = plain::list_moves(&table, &state, 0, 0, &mut []).length / 2;
    [table, state, page_words(middle, moves as u32)]
}

/// A plant of this kind with 64 rules, left alone with this budget.
fn alone(kind: &str, entries: usize, moves: usize) -> Input {
    let (table, state) = (plant(kind).make)(&mut Random::new(806), 64, entries);
    [table.words(), state.words(), vec![moves as u32]]
}

/// The program's input: a log of this kind, or a global one whose first move is refused, so that the program
/// loads and checks it and makes no move.
fn input(kind: &str, entries: usize, moves: usize) -> Vec<u8> {
    let [table, state, mut log] = log(kind, entries, moves);
    if kind == "refused" {
        // A rule that the table does not have.
        log[1] = table[3];
    }
    program::input(&table, &state, &log)
}

/// A call, its plain counterpart and their input.
fn measured(call: &str, kind: &str, entries: usize, moves: usize) -> (Pair, Input) {
    match call {
        "move" => (MAKE_MOVE, single(kind, entries)),
        "preview" => (PREVIEW, single(kind, entries)),
        "run" => (RUN, log(kind, entries, moves)),
        "serialize" => (SERIALIZE, log(kind, entries, moves)),
        "list_moves" => (LIST_MOVES, page(kind, entries, moves)),
        "run_unattended" => (RUN_UNATTENDED, alone(kind, entries, moves)),
        other => panic!("{other} is no call that takes a move, a log or a budget, or lists moves"),
    }
}

fn main() {
    let arguments: Vec<String> = args().skip(1).collect();
    let words: Vec<&str> = arguments.iter().map(String::as_str).collect();
    let (call, kind, entries, moves) = match words[..] {
        [call @ ("move" | "preview"), kind, entries] => (call, kind, entries, "1"),
        [call, kind, entries, moves] => (call, kind, entries, moves),
        _ => panic!(
            "usage: count move|preview global|begin|local|merge|commit|abort ENTRIES, run|serialize merges|global \
             ENTRIES MOVES, list_moves local|global ENTRIES MOVES, run_unattended \
             global|local|stopped|pairs|merges|commits|aborts ENTRIES MOVES, or input merges|global|refused ENTRIES MOVES"
        ),
    };
    let (entries, moves) = (entries.parse().unwrap(), moves.parse().unwrap());
    if call == "input" {
        return stdout().write_all(&input(kind, entries, moves)).unwrap();
    }
    let (pair, [table, state, third]) = measured(call, kind, entries, moves);
    let mut target = pairs::target();
    for call in [pair.ours, pair.rust] {
        for _ in 0..CALLS {
            let answer = black_box(call)(&table, &state, &third, &mut target);
            assert_eq!(answer.number(), 0, "{answer:?}");
        }
    }
    println!("{CALLS} calls each");
}
