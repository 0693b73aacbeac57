//! The model by itself, as the paper has it, and its molecules beside the plain code's entries.
mod common;

use std::collections::{BTreeMap, BTreeSet};

use harness::answer::{Answer, Preview};
use harness::generate::coverage::Coverage;
use harness::generate::lists::{listed, met};
use harness::generate::logs::{accepted, closed};
use harness::generate::moves::open;
use harness::generate::previews::{self, asked};
use harness::generate::states::{messages, state};
use harness::generate::tables::{table, Shape};
use harness::generate::unattended::plant;
use harness::model::colours;
use harness::model::definitions::{Channel, Definition, Definitions, Output, Product, Term};
use harness::model::ordered::{Made, Ordered};
use harness::model::solution::{Message, Origin, Solution, Transaction};
use harness::model::tally::{tally, Members};
use harness::random::Random;
use harness::words::{
    act, kind, log_from_words, log_target, log_words, page_target, role, Atom, Entry, Move, State, Table, STATE_TARGET,
};
use harness::{model, plain};

const C1: u32 = 0;
const C2: u32 = 1;
const OK: u32 = 2;
const Q: u32 = 3;
const A: u32 = 4;
const B: u32 = 5;

/// Example 8 of the paper without names as values: `a | b ▶ ok`, `a | b ▶ abort`,
/// `c1⟨x⟩ ▷ [a⟨x⟩ : q⟨x⟩]`, `c2⟨x⟩ ▷ [b⟨x⟩ : q⟨x⟩]`.
fn example_8() -> Definitions {
    let begin = |from: u32, inside: u32| {
        vec![
            Atom::consume(from),
            Atom::BEGIN,
            Atom::received(role::BODY, inside, 0),
            Atom::received(role::COMPENSATE, Q, 0),
        ]
    };
    let join = |product: Atom| vec![Atom::consume(A), Atom::consume(B), product];
    let rules = vec![begin(C1, A), begin(C2, B), join(Atom::constant(role::EMIT, OK, 0)), join(Atom::ABORT)];
    Definitions::read(&Table { global: 4, local: 0, merge: 2, rules }.words()).unwrap()
}

fn start(values: &[(u32, u32)]) -> Solution {
    let named = |(place, &(port, value)): (usize, &(u32, u32))| {
        (Origin::Start(place), Message { channel: Channel::Global(port), value })
    };
    Solution { messages: values.iter().enumerate().map(named).collect(), transactions: BTreeMap::new(), next: 1 }
}

fn values(messages: &BTreeMap<Origin, Message>) -> Vec<(u32, u32)> {
    let mut values: Vec<(u32, u32)> =
        messages.values().map(|message| (message.channel.port(), message.value)).collect();
    values.sort_unstable();
    values
}

/// Both transactions begun, then merged by this rule.
fn merged(rule: usize) -> Solution {
    let definitions = example_8();
    let mut solution = start(&[(C1, 10), (C2, 20)]);
    solution.fire(&definitions.rules[0], &[Origin::Start(0)], 0).unwrap();
    solution.fire(&definitions.rules[1], &[Origin::Start(1)], 1).unwrap();
    assert_eq!(solution.transactions.len(), 2);
    // Neither can commit alone: a merge name is left inside. Nothing has aborted.
    for id in [1, 2] {
        assert_eq!(solution.commit(id), Err(10));
        assert_eq!(solution.abort(id), Err(10));
    }
    let inside = |by| Origin::Made { by, product: 1 };
    solution.fire(&definitions.rules[rule], &[inside(0), inside(1)], 2).unwrap();
    assert_eq!(solution.transactions.len(), 1);
    assert_eq!(values(&solution.transactions[&1].compensation), [(Q, 10), (Q, 20)]);
    solution
}

/// The ids of the members that a transaction ended with.
fn members(ended: &Transaction) -> Vec<u32> {
    ended.members.values().copied().collect()
}

// Catches a merge that loses a compensation or a member, or a commit that frees one: the paper's P → P4.
#[test]
fn example_8_commits() {
    let mut solution = merged(2);
    assert_eq!(solution.abort(1), Err(10));
    assert_eq!(members(&solution.commit(1).unwrap()), [1, 2]);
    assert_eq!(values(&solution.messages), [(OK, 0)]);
    assert!(solution.transactions.is_empty());
}

// Catches an abort that frees only one party's compensation, or ends only one: the paper's P → P6.
#[test]
fn example_8_aborts() {
    let mut solution = merged(3);
    assert_eq!(solution.commit(1), Err(10));
    assert_eq!(members(&solution.abort(1).unwrap()), [1, 2]);
    assert_eq!(values(&solution.messages), [(Q, 10), (Q, 20)]);
    assert!(solution.transactions.is_empty());
}

// Catches a merge with a party in which an abort floats, and a begin, an end or another transaction that
// the abort keeps from going on: failure goes first, and only where it is.
#[test]
fn failure_goes_first() {
    // Example 8 with `c1⟨x⟩ ▷ [a⟨x⟩ | abort : q⟨x⟩]` besides, and `a ▶ a`.
    let mut definitions = example_8().rules;
    let Product::Global(Some(begin)) = &mut definitions[0].product else { unreachable!() };
    begin.abort = true;
    let again = Output { channel: Channel::Merge(A), term: Term::Received(0) };
    definitions.push(Definition {
        pattern: vec![Channel::Merge(A)],
        emits: vec![again],
        product: Product::Merge { abort: false },
    });
    definitions.extend(example_8().rules.into_iter().take(1));
    let [failing, other, joins, aborts, alone, going] = &definitions[..] else { unreachable!() };
    let mut solution = start(&[(C1, 10), (C2, 20), (C1, 30)]);
    solution.fire(failing, &[Origin::Start(0)], 0).unwrap();
    solution.fire(other, &[Origin::Start(1)], 1).unwrap();
    let [failed, waiting] = [0, 1].map(|by| Origin::Made { by, product: 1 });
    let before = solution.clone();
    for (rule, names) in [(joins, &[failed, waiting][..]), (aborts, &[failed, waiting]), (alone, &[failed])] {
        assert_eq!(solution.fire(rule, names, 2).map(|_| ()), Err(18));
    }
    assert_eq!(solution.commit(1), Err(10));
    assert_eq!(solution, before, "a refusal leaves the solution as it was");
    // Others begin, merge and end beside it.
    solution.fire(going, &[Origin::Start(2)], 2).unwrap();
    solution.fire(joins, &[Origin::Made { by: 2, product: 1 }, waiting], 3).unwrap();
    solution.commit(2).unwrap();
    solution.abort(1).unwrap();
    assert_eq!(values(&solution.messages), [(OK, 0), (Q, 10)]);
    assert!(solution.transactions.is_empty());
}

// Catches colours that follow the begins: both transactions have the colour of their one end.
#[test]
fn example_8_has_one_colour() {
    let definitions = example_8();
    let entries = vec![Entry::message(0, C1, 1), Entry::message(0, C2, 2), Entry::message(0, C1, 3)];
    let mut ordered = Ordered::read(&definitions, &State { next: 1, entries }.words()).unwrap();
    let moves =
        [Move::react(0, &[0]), Move::react(0, &[1]), Move::react(1, &[0]), Move::react(3, &[4, 7]), Move::abort(2)];
    let mut history: Vec<Made> = moves
        .iter()
        .enumerate()
        .map(|(place, mv)| ordered.make_words(&definitions, &mv.words(), place, 1_024).unwrap())
        .collect();
    // Every scope needs a colour, and the first transaction is still open: it is ended by hand.
    let ended = ordered.solution.transactions[&1].clone();
    history.push(Made::Ended { kind: act::ABORT, id: 1, ended });
    assert_eq!(colours::colours(&history), [Some(5), Some(4), Some(4), Some(4), Some(4), Some(5)]);
    assert_eq!(history.iter().map(Made::members).collect::<Vec<_>>(), [0, 0, 0, 0, 2, 1]);
    assert_eq!(tally(&history), [6, 3, 0, 3]);
}

/// The molecules of a solution as entries, without any order.
fn molecules(solution: &Solution) -> Vec<Entry> {
    let message = |owner, kind| move |message: &Message| Entry::new(owner, kind, message.channel.port(), message.value);
    let mut entries: Vec<Entry> = solution.messages.values().map(message(0, kind::MESSAGE)).collect();
    for (&id, transaction) in &solution.transactions {
        entries.extend(transaction.messages.values().map(message(id, kind::MESSAGE)));
        entries.extend(transaction.compensation.values().map(message(id, kind::COMPENSATION)));
        entries.extend(transaction.aborts.iter().map(|_| Entry::abort_mark(id)));
        entries.extend(transaction.members.values().map(|&member| Entry::member_mark(id, member)));
    }
    entries.sort_unstable();
    entries
}

// Catches a difference between the calculus and the entries that the order layer would hide.
#[test]
fn molecules_are_the_entries() {
    let mut random = Random::new(601);
    for round in 0..400 {
        let table = table(&mut random, if round % 2 == 0 { Shape::Small } else { Shape::Closable });
        let start = state(&mut random, &table, 40, true);
        let log = accepted(&mut random, &table, &start, 40);
        let definitions = Definitions::read(&table.words()).unwrap();
        let mut ordered = Ordered::read(&definitions, &start.words()).unwrap();
        for (place, mv) in log.iter().enumerate() {
            ordered.make_words(&definitions, &mv.words(), place, 1_024).unwrap();
        }
        let mut target = vec![0; 2_050];
        let answer = plain::run(&table.words(), &start.words(), &log_words(&log), &mut [0; 4], &mut target);
        assert_eq!(answer.number(), 0);
        let end = State::from_words(&target[..answer.words() as usize]).unwrap();
        let mut entries = end.entries.clone();
        entries.sort_unstable();
        assert_eq!((molecules(&ordered.solution), ordered.solution.next), (entries, end.next));
    }
}

/// The ids of the members of all transactions.
fn open_members(solution: &Solution) -> BTreeSet<u32> {
    solution.transactions.values().flat_map(|transaction| transaction.members.values().copied()).collect()
}

// Catches a member that the history of moves has lost, has twice, or counts as committed where it was aborted: after
// each move those of the start and those begun are, one by one, committed, aborted or still open.
#[test]
fn no_member_is_lost_or_counted_twice() {
    let mut random = Random::new(606);
    let mut coverage = Coverage::default();
    for round in 0..400 {
        let table = table(&mut random, if round % 2 == 0 { Shape::EveryClass } else { Shape::Closable });
        let start = state(&mut random, &table, 40, true);
        let log = accepted(&mut random, &table, &start, 40);
        let definitions = Definitions::read(&table.words()).unwrap();
        let mut ordered = Ordered::read(&definitions, &start.words()).unwrap();
        let at_start = open_members(&ordered.solution);
        let mut history: Vec<Made> = Vec::new();
        for (place, mv) in log.iter().enumerate() {
            history.push(ordered.make_words(&definitions, &mv.words(), place, 1_024).unwrap());
            let Members { begun, committed, aborted } = Members::of(&history);
            let open = open_members(&ordered.solution);
            let one_by_one = |parts: &[&BTreeSet<u32>]| {
                let mut ids: Vec<u32> = parts.iter().flat_map(|part| part.iter().copied()).collect();
                ids.sort_unstable();
                ids
            };
            assert_eq!(one_by_one(&[&at_start, &begun]), one_by_one(&[&committed, &aborted, &open]), "{mv:?}");
            let [moves, begun, committed, aborted] = tally(&history);
            assert_eq!([moves, begun], [place as u32 + 1, ordered.solution.next - start.next]);
            assert_eq!(committed + aborted, history.iter().map(Made::members).sum());
        }
        let Members { begun, committed, aborted } = Members::of(&history);
        let both = |ended: &BTreeSet<u32>| !ended.is_disjoint(&begun) && !ended.is_disjoint(&at_start);
        coverage
            .add([("commits of old and new ones", both(&committed)), ("aborts of old and new ones", both(&aborted))]);
        coverage.add([("some still open", !open_members(&ordered.solution).is_disjoint(&begun))]);
    }
    coverage.has_all(20);
}

// Catches a serial order after which the calculus is elsewhere: the named molecules, not only
// their words, are the same at the end of both orders (the paper's theorem), and each move ends as many members.
#[test]
fn both_orders_end_in_the_same_named_molecules() {
    let mut random = Random::new(602);
    let mut moves = 0;
    for _ in 0..600 {
        let table = table(&mut random, Shape::Closable);
        let n = random.between(1, 25) as usize;
        let start = messages(&mut random, &table, n);
        let log = closed(&mut random, &table, &start, 25);
        let definitions = Definitions::read(&table.words()).unwrap();
        let first = Ordered::read(&definitions, &start.words()).unwrap();
        let mut ordered = first.clone();
        let made = |(place, mv): (usize, &Move)| ordered.make_words(&definitions, &mv.words(), place, 1_024).unwrap();
        let history: Vec<Made> = log.iter().enumerate().map(made).collect();
        let order = colours::order(&history);
        let serial = colours::serial(&definitions, first.clone(), &history, 1_024).unwrap();
        let mut again = first;
        for (&place, mv) in order.iter().zip(&serial) {
            let made = again.make_words(&definitions, &mv.words(), place, 1_024).unwrap();
            assert_eq!(made.members(), history[place].members());
        }
        assert_eq!(again.solution, ordered.solution);
        moves += log.len();
    }
    assert!(moves > 5_000, "{moves}");
}

/// Every choice of `count` places below `n`, in order.
fn tuples(n: u32, count: usize) -> Vec<Vec<u32>> {
    (0..count).fold(vec![Vec::new()], |shorter, _| {
        let longer = |picks: &Vec<u32>| (0..n).map(|place| [&picks[..], &[place]].concat()).collect::<Vec<_>>();
        shorter.iter().flat_map(longer).collect()
    })
}

// Catches a list that leaves out a candidate: the model tries only messages on the right channel, here
// all places are tried, each on the state as it was.
#[test]
fn the_model_lists_what_it_makes() {
    let mut random = Random::new(603);
    let mut listed = [0; 3];
    for _ in 0..300 {
        let table = table(&mut random, Shape::Small);
        let start = state(&mut random, &table, 7, true);
        let definitions = Definitions::read(&table.words()).unwrap();
        let ordered = Ordered::read(&definitions, &start.words()).unwrap();
        let reactions = definitions.rules.iter().enumerate().flat_map(|(rule, definition)| {
            let picks = tuples(start.entries.len() as u32, definition.pattern.len());
            picks.into_iter().map(move |picks| Move::react(rule as u32, &picks))
        });
        // Ids that are not below the next one name nothing.
        let ids = (1..start.next.min(300)).chain(open(&start).into_iter().filter(|&id| id >= 300));
        let candidates = reactions.chain(ids.clone().map(Move::commit)).chain(ids.map(Move::abort));
        let made = |mv: &Move| ordered.clone().make_words(&definitions, &mv.words(), 0, 1_024).is_ok();
        let expected: Vec<Move> = candidates.filter(made).collect();
        expected.iter().for_each(|mv| listed[mv.kind as usize] += 1);
        assert_eq!(model::enabled_moves(&table.words(), &start.words(), u64::MAX), Ok(Some(expected)));
    }
    assert!(listed.iter().all(|&count| count > 15), "{listed:?}");
}

/// The whole list of the plain code, page after page of this count.
fn plain_list(table: &[u32], state: &[u32], count: u32) -> Vec<Move> {
    let mut list = Vec::new();
    loop {
        let mut target = vec![0; page_target(count)];
        let page = plain::list_moves(table, state, list.len() as u64, count, &mut target);
        let Answer::Accepted(words) = page.answer else { panic!("{page:?}") };
        list.extend(target[..words as usize].chunks_exact(5).map(|mv| Move::from_words(mv).unwrap()));
        if words == 0 {
            assert_eq!(page.length, list.len() as u64);
            return list;
        }
    }
}

// Catches a count that is not the list's length, a page that skips too much or too little, and a rule
// that is left out or not, beside the model, which counts and skips nothing.
#[test]
fn the_plain_code_lists_the_models_moves() {
    let mut random = Random::new(604);
    let mut coverage = Coverage::default();
    for round in 0..4_000 {
        let (table, state) = listed(&mut random, round);
        let (table_words, state_words) = (table.words(), state.words());
        // The model copies the state for each move that it makes.
        let most = 200_000 / (20 + state.entries.len() as u64);
        let Some(expected) = model::enabled_moves(&table_words, &state_words, most).unwrap() else { continue };
        let count = random.pick(&[1, 7, 255, 256, u32::MAX]);
        assert_eq!(plain_list(&table_words, &state_words, count), expected, "{table:?} {state:?}");
        coverage.add(met(&mut random, &table, &state, &expected));
    }
    coverage.has_all(40);
}

// Catches a model that stops its list too early or too late, that tries moves on what it has tried before, or whose
// state on the way is not that of the words: each move made alone is the first of the whole list of the state that the
// plain code's single moves lead to.
#[test]
fn the_model_makes_the_first_of_its_lists() {
    let mut random = Random::new(607);
    let mut made = [0; 4];
    for round in 0..3_000 {
        let (table, start) = plant(&mut random, round);
        let (table, mut state) = (table.words(), start.words());
        let mut target = vec![0; log_target(12)];
        let most = 20_000 / (20 + state.len() as u64);
        let Some(alone) = model::run_unattended_within(most, &table, &state, 12, &mut target) else { continue };
        let log = log_from_words(&target[..alone.answer.words() as usize]).unwrap();
        for mv in &log {
            let list = model::enabled_moves(&table, &state, u64::MAX).unwrap().expect("no limit");
            assert_eq!(list.first(), Some(mv), "{log:?} of {table:x?} {start:?}");
            made[mv.kind as usize] += 1;
            let mut target = [0; STATE_TARGET];
            let answer = plain::make_move(&table, &state, &mv.words(), &mut target);
            state = target[..answer.words() as usize].to_vec();
        }
        let list = model::enabled_moves(&table, &state, u64::MAX).unwrap().expect("no limit");
        assert_eq!((alone.still, alone.moves), (list.is_empty(), log.len() as u32));
        assert!(alone.still || log.len() == 12);
        made[3] += usize::from(alone.still);
    }
    assert!(made.iter().all(|&count| count > 200), "{made:?}");
}

/// The smallest id of a transaction that is not as it was, 0 if there is none.
fn touched(before: &Solution, after: &Solution) -> u32 {
    let ids = before.transactions.keys().chain(after.transactions.keys());
    ids.copied().filter(|id| before.transactions.get(id) != after.transactions.get(id)).min().unwrap_or(0)
}

/// The members that are in some transaction before and in none after, by their names.
fn gone(before: &Solution, after: &Solution) -> u32 {
    let names = |solution: &Solution| -> BTreeSet<Origin> {
        solution.transactions.values().flat_map(|transaction| transaction.members.keys()).copied().collect()
    };
    names(before).difference(&names(after)).count() as u32
}

// Catches a preview whose figures are not those of the calculus, the plain code's too, which makes no move: the
// molecules after the move are counted, and transactions and members compared with those before it.
#[test]
fn previews_are_of_the_solution_after_the_move() {
    let mut random = Random::new(605);
    let mut coverage = Coverage::default();
    for round in 0..20_000 {
        let (table, state, words) = asked(&mut random, round);
        let (table_words, state_words) = (table.words(), state.words());
        let definitions = Definitions::read(&table_words).unwrap();
        let before = Ordered::read(&definitions, &state_words).unwrap();
        let mut after = before.clone();
        let expected = match after.make_words(&definitions, &words, 0, 1_024) {
            Err(number) => Preview::refused(number),
            Ok(_) => {
                let entries = molecules(&after.solution).len();
                let mv = Move::from_words(&words).unwrap();
                coverage.add(previews::met(&table, &state, &mv, entries));
                let (before, after) = (&before.solution, &after.solution);
                Preview::accepted(entries, after.next, touched(before, after), gone(before, after))
            }
        };
        for preview in [model::preview, plain::preview] {
            assert_eq!(preview(&table_words, &state_words, &words), expected, "{words:x?} of {table:?} {state:?}");
        }
    }
    coverage.has_all(20);
}
