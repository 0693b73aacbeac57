//! The run of a log: all implementations on right, damaged and random input.
mod common;

use common::{check_state, ends, fault_sets, faulty_plant, make_move, marks_gone, refused, run, run_in};
use harness::answer::{order, Answer};
use harness::generate::logs::{accepted, broken_off};
use harness::generate::moves::{changed, consumes};
use harness::generate::states::{messages, state};
use harness::generate::tables::{table, Shape};
use harness::in_c;
use harness::random::Random;
use harness::two_lot::{self, case_a};
use harness::words::{act, log_words, role, Atom, Entry, Move, State, Table};

// Catches a run that makes only its first move, gives the start back, has one fixed end, or goes on
// after a refused move.
#[test]
fn cases_a_to_g() {
    let (table, start) = (two_lot::table(), two_lot::start());
    ends(run(&table, &start, &log_words(&case_a())), &two_lot::END_A, 2);
    ends(run(&table, &start, &log_words(&two_lot::case_c())), &two_lot::END_C, 1);
    ends(run(&table, &start, &log_words(&two_lot::case_d())), &two_lot::END_D, 2);
    for case in two_lot::refused() {
        let mut log = case.log();
        log.push(Move::commit(9));
        let refused = Answer::MoveRefused { place: case.after as u32, own: case.number };
        assert_eq!(run(&table, &start, &log_words(&log)).0, refused, "({})", case.case);
    }
    // The empty log gives the start.
    ends(run(&table, &start, &[0]), &start, 0);
    ends(run(&table, &[0, 65_536], &[0]), &[0, 65_536], 0);
}

// Catches a run whose later moves do not get what the move before left, and members that are not those of its moves
// added up: of the last move or the last end alone, or without those that are open at the start.
#[test]
fn a_run_is_its_moves_one_after_another() {
    let mut random = Random::new(401);
    let (mut moves, mut summed, mut at_start) = (0, 0, 0);
    for round in 0..600 {
        let table = table(&mut random, if round % 2 == 0 { Shape::Small } else { Shape::Closable });
        let start = state(&mut random, &table, 40, true);
        let log = accepted(&mut random, &table, &start, 30);
        let table = table.words();
        let mut words = start.words();
        let mut members = Vec::new();
        for mv in &log {
            let (answer, next) = make_move(&table, &words, &mv.words());
            assert_eq!(answer.number(), 0);
            members.push(answer.members());
            words = next;
        }
        ends(run(&table, &start.words(), &log_words(&log)), &words, members.iter().sum());
        assert_eq!(check_state(&table, &words), Answer::Accepted(0));
        moves += log.len();
        summed += usize::from(members.iter().filter(|&&members| members > 0).count() > 1);
        at_start += usize::from(log.iter().any(|mv| mv.kind != act::REACT && mv.number < start.next));
    }
    assert!(moves > 6_000 && summed > 100 && at_start > 100, "{moves} {summed} {at_start}");
}

// Catches members beside a refusal, which only C sees: the ends before the refused move count no more, and a log
// that is not run at all has none.
#[test]
fn a_refused_run_tells_no_members() {
    let (table, start) = (two_lot::table(), two_lot::start());
    let in_c = |log: &[u32], room: usize| in_c::run(&table, &start, log, &mut [u32::MAX; 4], &mut vec![0; room]);
    for mut log in [case_a(), two_lot::case_d()] {
        assert_eq!(in_c(&log_words(&log), 2_050), [0, 6, 0, 0, 2]);
        assert_eq!(in_c(&log_words(&log), 2_049), [6, 0, 0, 0, 0]);
        assert_eq!(in_c(&log_words(&log)[1..], 2_050), [13, 0, 0, 0, 0]);
        log.push(Move::commit(9));
        assert_eq!(in_c(&log_words(&log), 2_050), [16, 0, 6, 9, 0]);
    }
}

// Catches a sum that is cut short: more members than a state has entries, of one transaction that is open at the
// start and of others that begin and end one after another.
#[test]
fn a_long_sum_of_members() {
    let begin = vec![Atom::consume(0), Atom::BEGIN, Atom::received(role::BODY, 0, 0)];
    let table = Table { global: 1, local: 0, merge: 0, rules: vec![begin] }.words();
    let mut entries: Vec<Entry> = (1..=1_022).map(|id| Entry::member_mark(1, id)).collect();
    entries.push(Entry::message(0, 0, 7));
    let start = State { next: 1_023, entries }.words();
    let one = |id: u32| [Move::react(0, &[0]), Move::commit(id)];
    let log: Vec<Move> = [Move::commit(1)].into_iter().chain((1_023..1_534).flat_map(one)).collect();
    assert_eq!(log.len(), 1_023);
    ends(run(&table, &start, &log_words(&log)), &[1, 1_534, 0, 7], 1_022 + 511);
    let begun = &log[..log.len() - 1];
    ends(run(&table, &start, &log_words(begun)), &[2, 1_534, 1_533, 1_533, 0x0300_05FD, 7], 1_022 + 510);
}

// Catches differences that only long logs and large states show, and members that are not the marks gone from their
// words.
#[test]
fn long_logs_get_one_answer() {
    let mut random = Random::new(402);
    let (mut longest, mut most) = (0, 0);
    for round in 0..24 {
        let table = table(&mut random, Shape::Closable);
        let n = random.pick(&[50, 500, 1_000, 1_024]);
        let start = if round % 2 == 0 { messages(&mut random, &table, n) } else { state(&mut random, &table, n, true) };
        let log = accepted(&mut random, &table, &start, 1_024);
        longest = longest.max(log.len());
        let (answer, words) = run(&table.words(), &start.words(), &log_words(&log));
        assert_eq!((answer.number(), answer.members()), (0, marks_gone(&start.words(), &words)));
        assert_eq!(check_state(&table.words(), &words), Answer::Accepted(0));
        most = most.max(answer.members());
    }
    assert!(longest > 900 && most > 200, "{longest} {most}");
}

// Catches a wrong place or own number in 16, and members beside it: one move of an accepted log changed.
#[test]
fn a_changed_move_is_named() {
    let mut random = Random::new(403);
    let mut own_numbers = [0; 19];
    let (mut places, mut ended) = (0, 0);
    for round in 0..12_000 {
        let table = table(&mut random, if round % 2 == 0 { Shape::Small } else { Shape::Closable });
        let mut start = state(&mut random, &table, 30, true);
        if round % 4 == 0 {
            start.entries.resize(random.pick(&[1_015, 1_024]), Entry::message(0, 0, 1));
        }
        if round % 6 == 1 {
            start.next = random.pick(&[65_534, 65_535, 65_536]);
        }
        let moves = random.index(12);
        let mut log = accepted(&mut random, &table, &start, moves);
        // A move for the start, put anywhere: refused there or later, or accepted.
        let other = Move::from_words(&changed(&mut random, &table, &start)).unwrap();
        let at = random.index(log.len() + 1);
        log.insert(at, other);
        match run(&table.words(), &start.words(), &log_words(&log)).0 {
            Answer::MoveRefused { place, own } => {
                assert!(place as usize >= at && (place as usize) < log.len());
                own_numbers[own as usize] += 1;
                places += usize::from(place > 3);
                ended += usize::from(log[..place as usize].iter().any(|mv| mv.kind != act::REACT));
            }
            answer => assert!(matches!(answer, Answer::Moved { .. }), "{answer:?}"),
        }
    }
    for own in 0..19 {
        let possible = [5, 7, 8, 9, 10, 11, 12, 18].contains(&own);
        assert_eq!(own_numbers[own] > 20, possible, "{own}: {own_numbers:?}");
    }
    assert!(places > 500 && ended > 500, "{places} {ended}");
}

/// Whether a move is a reaction by a rule with this atom.
fn has_atom(table: &Table, mv: &Move, atom: Atom) -> bool {
    mv.kind == act::REACT && table.rules[mv.number as usize].contains(&atom)
}

// Catches a run that goes on in a transaction with an abort mark, one that stops before, and another place
// or number: the mark was there at the start, came with the begin, or by a reaction before.
#[test]
fn a_log_breaks_off_at_an_abort_mark() {
    let mut random = Random::new(405);
    let (mut at_start, mut by_begin, mut by_reaction, mut late, mut merges) = (0, 0, 0, 0, 0);
    for round in 0..6_000 {
        let table = table(&mut random, if round % 2 == 0 { Shape::EveryClass } else { Shape::Closable });
        let open = round % 3 == 0;
        let start = state(&mut random, &table, 30, open);
        let Some((log, place)) = broken_off(&mut random, &table, &start, 25) else { continue };
        let (table_words, start_words) = (table.words(), start.words());
        let (answer, before) = run(&table_words, &start_words, &log_words(&log[..place]));
        assert_eq!(answer.number(), 0);
        let refused = Answer::MoveRefused { place: place as u32, own: 18 };
        assert_eq!(run(&table_words, &start_words, &log_words(&log)).0, refused, "{table:?} {start:?} {log:?}");
        // Where the first pick with a mark is, and how that transaction began.
        let entries = State::from_words(&before).unwrap().entries;
        let marked = |id: u32| entries.contains(&Entry::abort_mark(id));
        let picks = &log[place].picks[..consumes(&table.rules[log[place].number as usize]).len()];
        let owners: Vec<u32> = picks.iter().map(|&pick| entries[pick as usize].owner).collect();
        let id = *owners.iter().find(|&&id| marked(id)).unwrap();
        let begins: Vec<&Move> = log[..place].iter().filter(|mv| has_atom(&table, mv, Atom::BEGIN)).collect();
        let begun = id.checked_sub(start.next).map(|begun| begins[begun as usize]);
        if start.entries.contains(&Entry::abort_mark(id)) {
            at_start += 1;
        } else if begun.is_some_and(|mv| has_atom(&table, mv, Atom::ABORT)) {
            by_begin += 1;
        } else {
            by_reaction += 1;
        }
        late += usize::from(place > 8);
        merges += usize::from(owners.iter().any(|&owner| owner != owners[0]));
    }
    let all = [at_start, by_begin, by_reaction, late, merges];
    assert!(all.iter().all(|&count| count > 50), "{all:?}");
}

// Catches a log of before M-105 that is still accepted whole: a transaction reacts and merges after its
// abort mark. Without these moves it is accepted.
#[test]
fn a_log_of_before_breaks_off() {
    let mut table = Table::from_words(&two_lot::table()).unwrap();
    table.rules.push(vec![Atom::consume(2), Atom::received(role::EMIT, 2, 0), Atom::ABORT]);
    let (table, start) = (table.words(), two_lot::start());
    let begun = case_a()[..3].to_vec();
    let stop = Move::react(4, &[3]);
    let before = [&begun[..], &[stop, Move::react(1, &[5]), Move::react(2, &[4, 6]), Move::abort(1)]].concat();
    assert_eq!(run(&table, &start, &log_words(&before)).0, Answer::MoveRefused { place: 4, own: 18 });
    let now = [&begun[..], &[stop, Move::abort(2)]].concat();
    ends(run(&table, &start, &log_words(&now)), &two_lot::END_C, 1);
}

// Catches a wrong count or length that passes, a read past the end, and a trap on noise.
#[test]
fn words_of_a_log() {
    let (table, start) = (two_lot::table(), two_lot::start());
    let words = log_words(&case_a());
    for cut in 0..words.len() {
        refused(run(&table, &start, &words[..cut]), 13);
    }
    let mut longer = words.clone();
    longer.push(0);
    refused(run(&table, &start, &longer), 13);
    for count in [0, 5, 7, 1_025, 0x3333_3334 + 6, 1 << 31, u32::MAX] {
        let mut wrong = words.clone();
        wrong[0] = count;
        refused(run(&table, &start, &wrong), 13);
    }
    let mut random = Random::new(404);
    for length in (0..=12).chain([5_121, 100_000]) {
        for round in 0..200 {
            let mut words: Vec<u32> = (0..length).map(|_| random.edge_word()).collect();
            if round % 2 == 0 && length > 0 {
                words[0] = (length as u32 - 1) / 5;
            }
            run(&table, &start, &words);
        }
    }
}

// Catches a limit of moves that is off by one: 1,024 and 1,025.
#[test]
fn limits_of_a_log() {
    let table =
        Table { global: 1, local: 0, merge: 0, rules: vec![vec![Atom::consume(0), Atom::received(role::EMIT, 0, 0)]] }
            .words();
    let start = State { next: 1, entries: vec![Entry::message(0, 0, 3), Entry::message(0, 0, 4)] }.words();
    let log = |k: usize| log_words(&vec![Move::react(0, &[0]); k]);
    ends(run(&table, &start, &log(1_024)), &start, 0);
    ends(run(&table, &start, &log(1_023)), &[2, 1, 0, 0, 4, 3], 0);
    refused(run(&table, &start, &log(1_025)), 13);
}

// Catches a target that is asked for too much or too little, and one written on 6.
#[test]
fn targets_of_a_run() {
    let (table, start, log) = (two_lot::table(), two_lot::start(), log_words(&case_a()));
    for room in (0..12).chain(2_040..2_060).chain([5_000]) {
        let (answer, ..) = run_in([&table, &start, &log], room);
        assert_eq!(answer, if room < 2_050 { Answer::Refused(6) } else { Answer::Moved { words: 6, members: 2 } });
    }
}

// Catches refusals in another order than 01's: every set of faults.
#[test]
fn the_first_fault_counts() {
    for faults in fault_sets(&order::RUN) {
        let has = |number| faults.contains(&number);
        let [table, start] = faulty_plant(&faults);
        let mut moves = case_a();
        if has(16) {
            moves[2] = Move::commit(3);
        }
        let mut log = log_words(&moves);
        if has(13) {
            log.push(0);
        }
        let (answer, ..) = run_in([&table, &start, &log], if has(6) { 2_049 } else { 2_050 });
        assert_eq!(answer.number(), faults.first().copied().unwrap_or(0), "{faults:?}");
        if answer.number() == 16 {
            assert_eq!(answer, Answer::MoveRefused { place: 2, own: 9 });
        }
    }
}
