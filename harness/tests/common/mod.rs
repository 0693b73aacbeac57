//! The implementations under test. Every test asks all of them the same and wants one answer.
// Each test file uses a part of this.
#![allow(dead_code)]
pub mod demand3;
pub mod faulty;

use std::fmt::Debug;
use std::fs;
use std::hint::black_box;
use std::path::Path;

use harness::answer::{order, Answer, OnMove, OnPage, OnTally, OnTarget, Page, Preview, Tally, Unattended};
use harness::generate::state_faults::StateFault;
use harness::generate::table_faults::TableFault;
use harness::random::Random;
use harness::two_lot;
use harness::words::{act, kind, log_target, page_target, role, Atom, Entry, Move, State, Table};
use harness::words::{MAX_MOVES, STATE_TARGET};
use harness::{in_c, library, model, plain, ROOT};

const NAMES: [&str; 3] = ["model", "plain", "library"];

/// A call of each implementation, in the order of their names, and the library's as C gets it.
#[derive(Clone, Copy)]
pub struct Calls {
    pub all: [OnTarget; 3],
    pub in_c: OnTarget<[u32; 5]>,
}

pub const MAKE_MOVE: Calls =
    Calls { all: [model::make_move, plain::make_move, library::make_move], in_c: in_c::make_move };
pub const PREVIEW: [OnMove; 3] = [model::preview, plain::preview, library::preview];
pub const RUN: [OnTally; 3] = [model::run, plain::run, library::run];
pub const SERIALIZE: Calls =
    Calls { all: [model::serialize, plain::serialize, library::serialize], in_c: in_c::serialize };
pub const LIST_MOVES: [OnPage; 3] = [model::list_moves, plain::list_moves, library::list_moves];

/// The one answer of all implementations.
pub fn check_table(table: &[u32]) -> Answer {
    let answers = [model::check_table(table), plain::check_table(table), library::check_table(table)];
    agreed(answers, in_c::check_table(table), &[("table", table)])
}

/// The one answer of all implementations.
pub fn check_state(table: &[u32], state: &[u32]) -> Answer {
    let answers =
        [model::check_state(table, state), plain::check_state(table, state), library::check_state(table, state)];
    agreed(answers, in_c::check_state(table, state), &[("table", table), ("state", state)])
}

fn agreed(answers: [Answer; 3], in_c: [u32; 5], input: &[(&str, &[u32])]) -> Answer {
    let [first, others @ ..] = answers;
    assert_eq!(others, [first; 2], "{NAMES:?} answer {answers:?} for {}", shown(input));
    assert_eq!(in_c, first.in_c(), "in C for {}", shown(input));
    first
}

/// Input in a failure's text, long parts cut.
pub fn shown(input: &[(&str, &[u32])]) -> String {
    let part = |(name, words): &(&str, &[u32])| {
        let head: Vec<String> = words.iter().take(60).map(|word| format!("{word:#x}")).collect();
        format!("{name} ({} words) [{}]", words.len(), head.join(", "))
    };
    input.iter().map(part).collect::<Vec<_>>().join("; ")
}

/// What the implementations of these names answer and write: the answer, and the words it counts.
/// Fails if they differ, if a refusal writes, or if a word beyond those counted is changed.
fn on_room<T: Copy + PartialEq + Debug>(
    names: &[&str],
    call: impl Fn(usize, &mut [u32]) -> T,
    answer: impl Fn(T) -> Answer,
    room: usize,
    input: impl Fn() -> String,
) -> (T, Vec<u32>) {
    let before: Vec<u32> = (0..room as u32).map(|place| 0xA5A5_0000 ^ place.wrapping_mul(0x9E37_79B9)).collect();
    let mut all: Vec<(&str, T, Vec<u32>)> = Vec::new();
    for (which, name) in names.iter().enumerate() {
        let mut target = before.clone();
        let given = call(which, &mut target);
        let written = answer(given).words() as usize;
        assert!(written <= room, "{name} counts {written} words of {room}");
        assert!(target[written..] == before[written..], "{name} wrote beyond its words, {}", input());
        target.truncate(written);
        all.push((name, given, target));
    }
    let (first, given, words) = &all[0];
    for (name, other, others) in &all[1..] {
        let same = given == other && words == others;
        assert!(same, "{first} {given:?}, {name} {other:?}; {words:x?}, {others:x?}; {}", input());
    }
    (*given, words.clone())
}

/// The one answer of all implementations, and the words it counts. Fails also if C gets another one: figures beside
/// a refusal, or members of a serialize.
pub fn on_target(calls: Calls, [table, state, third]: [&[u32]; 3], room: usize) -> (Answer, Vec<u32>) {
    let call = |which: usize, target: &mut [u32]| calls.all[which](table, state, third, target);
    let input = || shown(&[("table", table), ("state", state), ("move or log", third)]);
    let (answer, words) = on_room(&NAMES, call, |answer| answer, room, input);
    let in_c = (calls.in_c)(table, state, third, &mut vec![0; room]);
    assert_eq!(in_c, answer.in_c(), "in C for {}", input());
    (answer, words)
}

/// The one preview of all implementations. Fails if they differ, if the number is none of a preview's, if C gets
/// figures beside a refusal, or if an input is changed.
pub fn preview(table: &[u32], state: &[u32], mv: &[u32]) -> Preview {
    let input = || shown(&[("table", table), ("state", state), ("move", mv)]);
    let before = [table, state, mv].map(<[u32]>::to_vec);
    let all = PREVIEW.map(|call| call(table, state, mv));
    // Asked of memory again, whatever the compiler knows of slices that are only read.
    assert!(black_box([table, state, mv]) == before, "an input is changed, {}", input());
    let [first, others @ ..] = all;
    assert_eq!(others, [first; 2], "{NAMES:?} for {}", input());
    assert_eq!(plain::preview_in_place(table, state, mv), first, "in place for {}", input());
    assert_eq!(in_c::preview(table, state, mv), first, "in C for {}", input());
    assert!(first.number == 0 || order::PREVIEW.contains(&first.number), "{first:?} for {}", input());
    first
}

/// A page of the list of enabled moves: a first place, a count, and the words of the target.
#[derive(Clone, Copy, Debug)]
pub struct Asked {
    pub first: u64,
    pub count: u32,
    pub room: usize,
}

impl Asked {
    /// A target that is just long enough.
    pub fn new(first: u64, count: u32) -> Asked {
        Asked { first, count, room: page_target(count) }
    }

    /// Of all implementations; the model goes through the whole list.
    pub fn of(self, table: &[u32], state: &[u32]) -> (Page, Vec<u32>) {
        self.of_some(0, table, state)
    }

    /// Of the plain code and the library, for lists that are too long for the model.
    pub fn of_long(self, table: &[u32], state: &[u32]) -> (Page, Vec<u32>) {
        self.of_some(1, table, state)
    }

    fn of_some(self, from: usize, table: &[u32], state: &[u32]) -> (Page, Vec<u32>) {
        let Asked { first, count, room } = self;
        let call = |which: usize, target: &mut [u32]| LIST_MOVES[from + which](table, state, first, count, target);
        let input = || format!("{self:?}; {}", shown(&[("table", table), ("state", state)]));
        let (page, words) = on_room(&NAMES[from..], call, |page| page.answer, room, input);
        assert!(page.answer.number() == 0 || page.length == 0, "a refused list has a length: {}", input());
        (page, words)
    }
}

/// An unattended run: a budget, and the words of the target.
#[derive(Clone, Copy, Debug)]
pub struct Alone {
    pub budget: u32,
    pub room: usize,
}

/// Reactions that the model tries in a state at most, where it need not answer.
const TRIED: u64 = 20_000;

impl Alone {
    /// A target that is just long enough.
    pub fn new(budget: u32) -> Alone {
        Alone { budget, room: log_target((budget as usize).min(MAX_MOVES)) }
    }

    /// Of all implementations; the model goes through the list of every state on the way.
    pub fn of(self, table: &[u32], state: &[u32]) -> (Unattended, Vec<u32>) {
        self.of_some(0, table, state)
    }

    /// Of the plain code and the library, for lists that are too long for the model.
    pub fn of_long(self, table: &[u32], state: &[u32]) -> (Unattended, Vec<u32>) {
        self.of_some(1, table, state)
    }

    /// Of all of them where that takes the model few tries, otherwise without it; and whether it was asked.
    pub fn of_any(self, table: &[u32], state: &[u32]) -> (Unattended, Vec<u32>, bool) {
        let (alone, words) = self.of_long(table, state);
        // A try costs more where there is more to copy.
        let most = TRIED / (20 + state.len() as u64);
        let mut target = vec![0; self.room];
        let tried = model::run_unattended_within(most, table, state, self.budget, &mut target);
        target.truncate(words.len());
        let input = || format!("{self:?}; {}", shown(&[("table", table), ("state", state)]));
        assert!(tried.is_none_or(|tried| (tried, &target) == (alone, &words)), "{tried:?} {target:x?} for {}", input());
        (alone, words, tried.is_some())
    }

    fn of_some(self, from: usize, table: &[u32], state: &[u32]) -> (Unattended, Vec<u32>) {
        let Alone { budget, room } = self;
        let calls = [model::run_unattended, plain::run_unattended, library::run_unattended];
        let call = |which: usize, target: &mut [u32]| calls[from + which](table, state, budget, target);
        let input = || format!("{self:?}; {}", shown(&[("table", table), ("state", state)]));
        let (alone, words) = on_room(&NAMES[from..], call, |alone| alone.answer, room, input);
        let mut target = vec![0; room];
        assert_eq!(plain::run_unattended_along(table, state, budget, &mut target), alone, "along for {}", input());
        assert!(target[..words.len()] == words, "along {target:x?}, not {words:x?} for {}", input());
        // Words on both sides of the target, which is all that may be written to.
        let mut memory = vec![0x5A5A_5A5A; room + 16];
        let in_c = in_c::run_unattended(table, state, budget, &mut memory[8..8 + room]);
        assert_eq!(in_c, alone.in_c(), "in C for {}", input());
        let (written, behind) = memory[8..].split_at(words.len());
        let beside = memory[..8].iter().chain(behind).all(|&word| word == 0x5A5A_5A5A);
        assert!(written == words && beside, "in C {memory:x?}, not {words:x?} for {}", input());
        if alone.answer.number() == 0 {
            assert_eq!(self.reached(table, state, &words), alone, "by its log {words:x?} for {}", input());
        } else {
            assert_eq!(alone, Unattended::refused(alone.answer.number()), "{}", input());
        }
        (alone, words)
    }

    /// What an accepted answer has to be, from its log alone: a run accepts the log, and the list of the state that it
    /// leaves is empty, or the budget used up.
    fn reached(self, table: &[u32], state: &[u32], log: &[u32]) -> Unattended {
        let mut end = [0; STATE_TARGET];
        let ran = library::run(table, state, log, &mut [0; 4], &mut end);
        assert_eq!(ran.number(), 0, "{ran:?}");
        let end = &end[..ran.words() as usize];
        let still = library::list_moves(table, end, 0, 0, &mut []).length == 0;
        assert!(still || log[0] == self.budget, "a budget of {} is not used up after {}", self.budget, log[0]);
        let words = log_target(log[0] as usize) as u32;
        assert!(log[0] <= self.budget && words == log.len() as u32);
        Unattended { answer: Answer::Accepted(words), moves: log[0], still }
    }
}

pub fn make_move(table: &[u32], state: &[u32], mv: &[u32]) -> (Answer, Vec<u32>) {
    on_target(MAKE_MOVE, [table, state, mv], 2_050)
}

/// A run whose caller hands in this tally: the one answer of all implementations, the words it counts, and the tally
/// afterwards. Fails also if C gets another answer or tally, if a refusal changes the tally, or if an accepted run's is
/// not that of the words.
pub fn on_tally(lists: [&[u32]; 3], handed_in: Tally, room: usize) -> (Answer, Vec<u32>, Tally) {
    let [table, state, log] = lists;
    let call = |which: usize, target: &mut [u32]| {
        let mut tally = handed_in;
        let answer = RUN[which](table, state, log, &mut tally, target);
        (answer, tally)
    };
    let input = || format!("tally {handed_in:x?}; {}", shown(&[("table", table), ("state", state), ("log", log)]));
    let ((answer, tally), words) = on_room(&NAMES, call, |(answer, _)| answer, room, input);
    let mut in_c_tally = handed_in;
    let in_c = in_c::run(table, state, log, &mut in_c_tally, &mut vec![0; room]);
    assert_eq!((in_c, in_c_tally), (answer.in_c(), tally), "in C for {}", input());
    if answer.number() != 0 {
        assert_eq!(tally, handed_in, "a refusal changes the tally, {}", input());
    } else {
        let (stated, found) = from_words(state, log, answer, &words, tally);
        assert_eq!(stated, found, "{tally:?} for {}", input());
    }
    (answer, words, tally)
}

/// What an accepted run's tally states, and the same from words alone: the log's count, the ids given out, the members
/// of the answer, the marks of the start and those begun beside the marks gone and those left, and whether anything was
/// committed or aborted.
fn from_words(state: &[u32], log: &[u32], answer: Answer, end: &[u32], tally: Tally) -> ([u32; 6], [u32; 6]) {
    let [moves, begun, committed, aborted] = tally;
    let marks = |state: &[u32]| mark_owners(state).count() as u32;
    let ended = committed.wrapping_add(aborted);
    let has = |kind: u32| log[1..=log[0] as usize].iter().any(|head| head >> 24 == kind);
    let stated = [moves, begun, ended, marks(state).wrapping_add(begun), (committed > 0).into(), (aborted > 0).into()];
    let balance = ended.wrapping_add(marks(end));
    let found = [log[0], end[1] - state[1], answer.members(), balance, has(act::COMMIT).into(), has(act::ABORT).into()];
    (stated, found)
}

/// A tally that no run left, another one for other input; often all its bits are set.
pub fn garbage(lists: [&[u32]; 3], room: usize) -> Tally {
    let mix = |seed: u64, &word: &u32| (seed ^ u64::from(word)).wrapping_mul(0x0100_0000_01B3);
    let mut random = Random::new(lists.concat().iter().fold(room as u64, mix));
    match random.below(3) {
        0 => [u32::MAX; 4],
        1 => [(); 4].map(|()| random.edge_word()),
        _ => [(); 4].map(|()| random.word()),
    }
}

/// A run with garbage for a tally, and a target of so many words.
pub fn run_in(lists: [&[u32]; 3], room: usize) -> (Answer, Vec<u32>, Tally) {
    on_tally(lists, garbage(lists, room), room)
}

/// .. with a target that is just long enough.
pub fn tallied(table: &[u32], state: &[u32], log: &[u32]) -> (Answer, Vec<u32>, Tally) {
    run_in([table, state, log], 2_050)
}

/// .. whose tally is of no matter.
pub fn run(table: &[u32], state: &[u32], log: &[u32]) -> (Answer, Vec<u32>) {
    let (answer, words, _) = tallied(table, state, log);
    (answer, words)
}

pub fn serialize(table: &[u32], state: &[u32], log: &[u32]) -> (Answer, Vec<u32>) {
    on_target(SERIALIZE, [table, state, log], log.len().max(1))
}

/// Accepted, with exactly these words, whatever the members.
#[track_caller]
pub fn gives((answer, written): (Answer, Vec<u32>), words: &[u32]) {
    assert_eq!((answer.number(), &written[..]), (0, words));
}

/// A move or a run that is accepted, with exactly these words and members.
#[track_caller]
pub fn ends(result: (Answer, Vec<u32>), words: &[u32], members: u32) {
    assert_eq!(result, (Answer::Moved { words: words.len() as u32, members }, words.to_vec()));
}

/// The answer of reactions that are accepted.
pub fn reacted(words: u32) -> Answer {
    Answer::Moved { words, members: 0 }
}

/// The owners of a state's member marks, from its words alone.
pub fn mark_owners(state: &[u32]) -> impl Iterator<Item = u32> + '_ {
    let (owners, items) = state[2..].split_at(state[0] as usize);
    owners.iter().zip(items).filter(|(_, &item)| item >> 24 == kind::MEMBER_MARK).map(|(&owner, _)| owner)
}

/// The member marks that a move removes where it is accepted, from the words of the state before it alone.
pub fn marks_removed(state: &[u32], mv: &[u32]) -> u32 {
    let of = |id: u32| mark_owners(state).filter(|&owner| owner == id).count() as u32;
    if mv[0] >> 24 == act::REACT {
        0
    } else {
        of(mv[0] & 0xFF_FFFF)
    }
}

/// The member marks that are gone from one state to another, from their words alone: each begin between them made one
/// and took an id.
pub fn marks_gone(before: &[u32], after: &[u32]) -> u32 {
    let marks = |state: &[u32]| mark_owners(state).count() as u32;
    marks(before) + (after[1] - before[1]) - marks(after)
}

/// Refused with this number.
#[track_caller]
pub fn refused(result: (Answer, Vec<u32>), number: u32) {
    assert_eq!(result.0, Answer::Refused(number));
}

/// The state of the two-lot plant after these moves.
pub fn after(moves: &[Move]) -> Vec<u32> {
    moves.iter().fold(two_lot::start(), |state, mv| {
        let (answer, words) = make_move(&two_lot::table(), &state, &mv.words());
        assert_eq!(answer.number(), 0);
        words
    })
}

/// .. after so many moves of (a).
pub fn after_a(moves: usize) -> Vec<u32> {
    after(&two_lot::case_a()[..moves])
}

/// Every set of the faults of a call, each in the call's order: so each alone and each pair too.
pub fn fault_sets(order: &[u32]) -> impl Iterator<Item = Vec<u32>> + '_ {
    let set = |set: u32| (0..order.len()).filter(|bit| set >> bit & 1 == 1).map(|bit| order[bit]).collect();
    (0..1 << order.len()).map(set)
}

/// The two-lot plant's table and start, with those of the faults 1 to 4 that there are to be.
pub fn faulty_plant(faults: &[u32]) -> [Vec<u32>; 2] {
    let (mut table, mut start) = (two_lot::table(), two_lot::start());
    if faults.contains(&2) {
        table[28] ^= 0x0F00_0000;
    }
    if faults.contains(&1) {
        table.push(0);
    }
    if faults.contains(&4) {
        start[5] = 0x0400_0000;
    }
    if faults.contains(&3) {
        start[1] = 0;
    }
    [table, start]
}

/// A state with a fault, and a table with one whatever the state is like: each is asked about with the number that it must
/// be refused with, and counted by it.
pub fn ask_faulty(
    random: &mut Random,
    table: &Table,
    state: &State,
    planted: &mut [u32; 5],
    ask: impl Fn(&[u32], &[u32], u32),
) {
    let (table_fault, state_fault) = (random.pick(TableFault::ALL), random.pick(StateFault::ALL));
    let bad_state = state_fault.plant(random, table, state);
    if let Some(bad_state) = &bad_state {
        ask(&table.words(), bad_state, state_fault.number());
        planted[state_fault.number() as usize] += 1;
    }
    if let Some(bad_table) = table_fault.plant(random, table) {
        ask(&bad_table, &bad_state.unwrap_or(state.words()), table_fault.number());
        planted[table_fault.number() as usize] += 1;
    }
}

/// The two-lot plant's table and a state of (a); one of them may be noise, or have a word of it.
pub fn noisy(random: &mut Random) -> [Vec<u32>; 2] {
    let mut parts = [two_lot::table(), after_a(random.index(7))];
    let part = random.index(2);
    let length = random.pick(&[0, 1, 4, 5, 6, 12, 29, 200]);
    match random.below(4) {
        0 => parts[part] = (0..length).map(|_| random.edge_word()).collect(),
        1 => {}
        _ => {
            let at = random.index(parts[part].len());
            parts[part][at] = random.edge_word();
        }
    }
    parts
}

/// A begin with an abort mark inside, a local rule, merge rules of one to four consumes, and a global rule.
pub fn every_rule() -> Table {
    let merge = |picks: usize| [vec![Atom::consume(2); picks], vec![Atom::received(role::EMIT, 2, 0)]].concat();
    let begin = vec![
        Atom::consume(0),
        Atom::BEGIN,
        Atom::received(role::BODY, 1, 0),
        Atom::received(role::BODY, 2, 0),
        Atom::received(role::COMPENSATE, 0, 0),
        Atom::ABORT,
    ];
    let local = vec![Atom::consume(1), Atom::received(role::EMIT, 1, 0)];
    let global = vec![Atom::consume(0), Atom::received(role::EMIT, 0, 0)];
    Table { global: 1, local: 1, merge: 1, rules: vec![begin, local, merge(1), merge(2), merge(3), merge(4), global] }
}

/// A begin with an offer to merge, merges of two and of four that offer again, and rules that take the last offer for
/// a commit and for an abort.
pub fn merging() -> Table {
    let rule = |port, count: usize, made: &[Atom]| [&vec![Atom::consume(port); count], made].concat();
    let begin = [Atom::BEGIN, Atom::received(role::BODY, 1, 0), Atom::received(role::COMPENSATE, 0, 0)];
    let [free, offer] = [0, 1].map(|port| Atom::received(role::EMIT, port, 0));
    let rules = vec![
        rule(0, 1, &begin),
        rule(1, 2, &[offer]),
        rule(1, 4, &[offer]),
        rule(1, 1, &[free]),
        rule(1, 1, &[Atom::ABORT]),
    ];
    Table { global: 1, local: 0, merge: 1, rules }
}

/// A table, a start of `n` entries and a log whose serial order wants one entry more than the log:
/// the begin takes four messages and comes first, in serial order after the growth by one.
pub fn shrinking(n: usize) -> (Table, State, Vec<Move>) {
    let begin = vec![Atom::consume(0); 4].into_iter().chain([Atom::BEGIN]).collect();
    let grow = vec![Atom::consume(1), Atom::received(role::EMIT, 1, 0), Atom::received(role::EMIT, 1, 0)];
    let mut entries = vec![Entry::message(0, 1, 5); n];
    entries[..4].fill(Entry::message(0, 0, 5));
    (
        Table { global: 2, local: 0, merge: 0, rules: vec![begin, grow] },
        State { next: 1, entries },
        vec![Move::react(0, &[0, 1, 2, 3]), Move::react(1, &[0]), Move::commit(1)],
    )
}

/// What the header says above a call, on one line.
pub fn header_comment(call: &str) -> String {
    let header = fs::read_to_string(Path::new(ROOT).join("include/coordinator.h")).unwrap();
    let (before, _) = header.split_once(&format!(" coordinator_{call}(")).expect(call);
    let (comment, _) = before.rsplit_once("/* ").and_then(|(_, comment)| comment.split_once("*/")).unwrap();
    comment.lines().map(|line| line.trim_start_matches(" * ").trim()).collect::<Vec<_>>().join(" ")
}

/// An order of faults as the pages and the header write it.
pub fn listed(order: &[u32]) -> String {
    let at_start = order.iter().position(|&number| number == 15);
    let shown = |(place, number): (usize, &u32)| match number {
        15 if Some(place) == at_start => "15 (start)".into(),
        15 => "15 (end)".into(),
        number => number.to_string(),
    };
    order.iter().enumerate().map(shown).collect::<Vec<String>>().join(", ")
}
