//! The serial log: all implementations, and demand 3 on what they write.
mod common;

use common::demand3::Demand3;
use common::{ends, gives, merging, on_target, refused, run, serialize, shrinking, tallied, SERIALIZE};
use harness::answer::{order, Answer};
use harness::generate::coverage::Coverage;
use harness::generate::logs::{accepted, broken_off, closed, Walk};
use harness::generate::moves::aborting;
use harness::generate::states::{messages, state};
use harness::generate::tables::{table, Shape};
use harness::in_c;
use harness::random::Random;
use harness::two_lot::{self, case_d};
use harness::words::{act, log_from_words, log_words, role, Atom, Entry, Move, State, Table};

// Catches a log that is only copied, and blocks in the order of begins instead of ends.
#[test]
fn cases_d_and_h() {
    let (table, start) = (two_lot::table(), two_lot::start());
    let serial = log_words(&two_lot::serial_d());
    gives(serialize(&table, &start, &log_words(&case_d())), &serial);
    ends(run(&table, &start, &serial), &two_lot::SERIAL_END_D, 2);
    // The empty log: one word, which is no refusal with 1.
    gives(serialize(&table, &start, &[0]), &[0]);
}

// Catches a renumbering of a log that is serial already: case (a) is one block.
#[test]
fn a_serial_log_stays() {
    let log = log_words(&two_lot::case_a());
    gives(serialize(&two_lot::table(), &two_lot::start(), &log), &log);
}

// Catches a checker of demand 3 that lets wrong logs pass.
#[test]
fn wrong_serial_logs_break_a_clause() {
    let table = Table::from_words(&two_lot::table()).unwrap();
    let start = State::from_words(&two_lot::start()).unwrap();
    let log = case_d();
    let demand = Demand3::new(&table, &start, &log);
    assert_eq!(demand.check(&log), Err("a block stands before its end"));
    let begin = |pick| Move::react(0, &[pick]);
    let stop = |pick| Move::react(3, &[pick]);
    // Blocks in the order of begins.
    let by_begin = [begin(0), stop(2), Move::abort(1), begin(0), stop(2), Move::abort(2)];
    assert_eq!(demand.check(&by_begin), Err("ends and global moves keep their order"));
    // The block of one transaction inside that of the other.
    let nested = [begin(0), begin(0), stop(4), Move::abort(2), stop(1), Move::abort(1)];
    assert_eq!(demand.check(&nested), Err("a block stands before its end"));
    let without_the_other = [begin(1), stop(2), Move::abort(1)];
    assert_eq!(demand.check(&without_the_other), Err("each move once"));
    let other_kind = [begin(1), stop(2), Move::commit(1)];
    assert_eq!(demand.check(&other_kind), Err("the same origins"));
    let other_rule = [begin(1), Move::react(1, &[2]), Move::abort(1)];
    assert_eq!(demand.check(&other_rule), Err("the same origins"));
    let left_open = [begin(1), stop(2), Move::abort(1), begin(0)];
    assert_eq!(demand.check(&left_open), Err("nothing open at the end"));
}

/// Checks one closed log against demand 3 and gives the answer.
fn demand3(table: &Table, start: &State, log: &[Move]) -> Answer {
    let (table_words, start_words) = (table.words(), start.words());
    let (answer, words) = serialize(&table_words, &start_words, &log_words(log));
    let demand = Demand3::new(table, start, log);
    if demand.peak() > 1_024 {
        assert_eq!(answer, Answer::Refused(17));
        return answer;
    }
    assert_eq!(answer, Answer::Accepted(1 + 5 * log.len() as u32), "peak {}", demand.peak());
    let serial = log_from_words(&words).expect("a log");
    assert_eq!(demand.check(&serial), Ok(()));
    // The serial log runs and ends as many members, with the same tally.
    let [first, again] = [&log_words(log), &words].map(|log| tallied(&table_words, &start_words, log));
    assert_eq!((again.0.number(), again.0.members()), (0, first.0.members()));
    assert_eq!(first.0.members(), demand.ended().iter().sum::<u32>());
    assert_eq!([first.2, again.2], [demand.tally(); 2]);
    // A serial log is its own serial log.
    gives(serialize(&table_words, &start_words, &words), &words);
    answer
}

// Catches any broken clause of demand 3 on interleaved, merged, committed and aborted work.
#[test]
fn random_closed_logs() {
    let mut random = Random::new(501);
    let (mut moved, mut merges, mut commits, mut aborts, mut beside) = (0, 0, 0, 0, 0);
    for _ in 0..3_000 {
        let table = table(&mut random, Shape::Closable);
        let n = random.between(1, 30) as usize;
        let start = messages(&mut random, &table, n);
        let moves = random.pick(&[5, 20, 60]);
        let log = closed(&mut random, &table, &start, moves);
        demand3(&table, &start, &log);
        let words = log_words(&log);
        moved += usize::from(serialize(&table.words(), &start.words(), &words).1 != words);
        commits += log.iter().filter(|mv| mv.kind == act::COMMIT).count();
        aborts += log.iter().filter(|mv| mv.kind == act::ABORT).count();
        let ended = Demand3::new(&table, &start, &log).ended();
        merges += ended.iter().filter(|&&members| members > 1).count();
        beside += beside_marks(&table, &start, &log);
    }
    let all = [moved, merges, commits, aborts, beside];
    assert!(all.iter().zip([500, 500, 1_000, 1_000, 1_000]).all(|(&count, least)| count > least), "{all:?}");
}

// Catches a run whose members or tally depend on the order of its moves, and members of a serialize itself, which only
// C sees: in a log that serializes each begin's member ends.
#[test]
fn serial_logs_have_the_same_members_and_tally() {
    let mut random = Random::new(507);
    let mut coverage = Coverage::default();
    for _ in 0..1_500 {
        let table = table(&mut random, Shape::Closable);
        let n = random.between(1, 30) as usize;
        let start = messages(&mut random, &table, n);
        let log = closed(&mut random, &table, &start, 40);
        let demand = Demand3::new(&table, &start, &log);
        let (several, counted) = (demand.ended().into_iter().max() > Some(1), demand.tally());
        let (table, start, log) = (table.words(), start.words(), log_words(&log));
        let (_, serial) = serialize(&table, &start, &log);
        let in_c = in_c::serialize(&table, &start, &log, &mut vec![0; log.len()]);
        assert_eq!(in_c, [0, serial.len() as u32, 0, 0, 0]);
        let (first, end, tally) = tallied(&table, &start, &log);
        let (again, _, serial_tally) = tallied(&table, &start, &serial);
        let begun = end[1] - start[1];
        assert_eq!([first.members(), again.members()], [begun; 2]);
        assert_eq!([tally, serial_tally], [counted; 2]);
        let other = serial != log;
        let [_, _, committed, aborted] = tally;
        coverage.add([("more than one", begun > 1), ("more than ten", begun > 10)]);
        coverage.add([("in another order", other && begun > 1), ("several at once", other && several)]);
        coverage.add([("both ends", other && committed > 0 && aborted > 0 && committed != aborted)]);
    }
    coverage.has_all(100);
}

/// The reactions that are made while some transaction has an abort mark.
fn beside_marks(table: &Table, start: &State, log: &[Move]) -> usize {
    let mut walk = Walk::new(table, start);
    let mut count = 0;
    for &mv in log {
        count += usize::from(mv.kind == act::REACT && !aborting(&walk.state).is_empty());
        assert!(walk.make(mv));
    }
    count
}

// Catches a serial log for a log that goes on in a transaction with an abort mark, and another place or
// number: nothing is open at the start, so 16 comes before 15 for what is left open.
#[test]
fn a_log_breaks_off_at_an_abort_mark() {
    let mut random = Random::new(506);
    let (mut broken, mut late) = (0, 0);
    for _ in 0..4_000 {
        let table = table(&mut random, Shape::Closable);
        let n = random.between(1, 30) as usize;
        let start = messages(&mut random, &table, n);
        let Some((log, place)) = broken_off(&mut random, &table, &start, 40) else { continue };
        let expected = Answer::MoveRefused { place: place as u32, own: 18 };
        assert_eq!(serialize(&table.words(), &start.words(), &log_words(&log)).0, expected);
        broken += 1;
        late += usize::from(place > 8);
    }
    assert!(broken > 500 && late > 100, "{broken} {late}");
}

/// The place of the transaction's message on the merge port 1.
fn offer(walk: &Walk, id: u32) -> u32 {
    let offers = |entry: &Entry| *entry == Entry::message(id, 1, entry.value);
    walk.state.entries.iter().position(offers).expect("an offer") as u32
}

// Catches an id, a member or a block lost in a chain of merges: four transactions merge in every
// order, by twos or all at once, and end by a commit or an abort.
#[test]
fn merges_in_every_order() {
    let table = merging();
    let start = State { next: 1, entries: (10..15).map(|value| Entry::message(0, 0, value)).collect() };
    for number in 0..4u32.pow(4) {
        let order: Vec<u32> = (0..4).map(|digit| 1 + number / 4u32.pow(digit) % 4).collect();
        if (1..=4).any(|id| !order.contains(&id)) {
            continue;
        }
        for ending in [3, 4] {
            for shape in 0..3 {
                let mut walk = Walk::new(&table, &start);
                // A fifth transaction ends in between and stays apart.
                (0..5).for_each(|_| assert!(walk.make(Move::react(0, &[0]))));
                let pair = |walk: &mut Walk, one: u32, other: u32| {
                    let picks = [offer(walk, one), offer(walk, other)];
                    assert!(walk.make(Move::react(1, &picks)));
                    one.min(other)
                };
                match shape {
                    0 => {
                        order[1..].iter().fold(order[0], |one, &other| pair(&mut walk, one, other));
                    }
                    1 => {
                        let one = pair(&mut walk, order[0], order[1]);
                        let other = pair(&mut walk, order[2], order[3]);
                        pair(&mut walk, one, other);
                    }
                    _ => {
                        let picks: Vec<u32> = order.iter().map(|&id| offer(&walk, id)).collect();
                        assert!(walk.make(Move::react(2, &picks)));
                    }
                }
                let fifth = offer(&walk, 5);
                assert!(walk.make(Move::react(4, &[fifth])) && walk.make(Move::abort(5)));
                let whole = offer(&walk, 1);
                assert!(walk.make(Move::react(ending, &[whole])));
                assert!(walk.make(if ending == 3 { Move::commit(1) } else { Move::abort(1) }));
                let log = walk.log;
                assert_eq!(demand3(&table, &start, &log).number(), 0);
                assert_eq!(Demand3::new(&table, &start, &log).ended(), [1, 4]);
                // The fifth now comes first: its end is under id 1, that of the four under id 2.
                let (_, words) = serialize(&table.words(), &start.words(), &log_words(&log));
                let serial = log_from_words(&words).unwrap();
                assert_eq!((serial[2], serial.last().unwrap().number), (Move::abort(1), 2));
            }
        }
    }
}

// Catches what only long logs show: many transactions at once, ids far from their places.
#[test]
fn long_closed_logs() {
    let mut random = Random::new(502);
    let mut longest = 0;
    for _ in 0..16 {
        let table = table(&mut random, Shape::Closable);
        let n = random.pick(&[100, 400, 800]);
        let start = messages(&mut random, &table, n);
        let log = closed(&mut random, &table, &start, 1_024);
        longest = longest.max(log.len());
        demand3(&table, &start, &log);
    }
    assert!(longest > 900, "{longest}");
}

// Catches 17 where nothing outgrows, and no 17 where something does: logs near the limit.
#[test]
fn random_logs_near_the_limit() {
    let mut random = Random::new(503);
    let mut outgrown = 0;
    for _ in 0..150 {
        let table = table(&mut random, Shape::Closable);
        let n = random.between(1_010, 1_024) as usize;
        let start = messages(&mut random, &table, n);
        let log = closed(&mut random, &table, &start, 60);
        outgrown += usize::from(demand3(&table, &start, &log) == Answer::Refused(17));
    }
    assert!(outgrown > 10 && outgrown < 140, "{outgrown}");
}

// Catches a limit of 17 that is off by one.
#[test]
fn the_limit_of_a_serial_order() {
    for (n, number) in [(1_022, 0), (1_023, 0), (1_024, 17)] {
        let (table, start, log) = shrinking(n);
        assert_eq!(run(&table.words(), &start.words(), &log_words(&log)).0.number(), 0);
        assert_eq!(demand3(&table, &start, &log).number(), number, "{n}");
    }
    let (table, start, log) = shrinking(1_023);
    let serial = [Move::react(1, &[4]), Move::react(0, &[0, 1, 2, 3]), Move::commit(1)];
    gives(serialize(&table.words(), &start.words(), &log_words(&log)), &log_words(&serial));
}

// Catches 17 for a log that itself outgrows the limit: its own refusal counts.
#[test]
fn an_outgrown_log_is_refused_first() {
    let (table, start, _) = shrinking(1_024);
    let log = [Move::react(1, &[4]), Move::react(0, &[0, 1, 2, 3]), Move::commit(1)];
    let (answer, _) = serialize(&table.words(), &start.words(), &log_words(&log));
    assert_eq!(answer, Answer::MoveRefused { place: 0, own: 12 });
}

// Catches a limit of moves, ids or entries that only the largest log meets: 512 transactions are
// open at once, in 1,024 entries, and end in the opposite order.
#[test]
fn the_longest_log() {
    let rule = vec![Atom::consume(0), Atom::BEGIN, Atom::received(role::BODY, 0, 0)];
    let table = Table { global: 1, local: 0, merge: 0, rules: vec![rule] };
    let start = State { next: 65_024, entries: (0..512).map(|value| Entry::message(0, 0, value)).collect() };
    let begins = (0..512).map(|_| Move::react(0, &[0]));
    let ends = (0..512).rev().map(|number| Move::commit(65_024 + number));
    let log: Vec<Move> = begins.chain(ends).collect();
    assert_eq!(log.len(), 1_024);
    assert_eq!(demand3(&table, &start, &log), Answer::Accepted(5_121));
    // The last message is begun on and committed first; it then stands behind the others.
    let serial: Vec<Move> =
        (0..512).flat_map(|number| [Move::react(0, &[511 - number]), Move::commit(65_024 + number)]).collect();
    gives(serialize(&table.words(), &start.words(), &log_words(&log)), &log_words(&serial));
}

// Catches 17 that is only tested between blocks: here a block outgrows the limit and ends below
// it, because the growth outside now comes before the begin and not after the work inside.
#[test]
fn a_block_that_outgrows() {
    let mut begin = vec![Atom::consume(0), Atom::BEGIN];
    begin.extend(vec![Atom::constant(role::BODY, 1, 0); 4]);
    let mut grow = vec![Atom::consume(0)];
    grow.extend(vec![Atom::constant(role::EMIT, 0, 0); 5]);
    let shrink = vec![Atom::consume(1); 4];
    let table = Table { global: 1, local: 1, merge: 0, rules: vec![begin, shrink, grow] };
    for (n, number) in [(1_015, 0), (1_016, 0), (1_017, 17), (1_020, 17)] {
        let start = State { next: 1, entries: vec![Entry::message(0, 0, 1); n as usize] };
        let log =
            [Move::react(0, &[0]), Move::react(1, &[n, n + 1, n + 2, n + 3]), Move::react(2, &[0]), Move::commit(1)];
        assert_eq!(run(&table.words(), &start.words(), &log_words(&log)).0.number(), 0, "{n}");
        assert_eq!(demand3(&table, &start, &log).number(), number, "{n}");
    }
}

// Catches origins taken for values, or for places: equal messages, consumed in another order.
#[test]
fn equal_messages_are_told_apart() {
    let table = two_lot::table();
    let start = [3, 1, 0, 0, 0, 7, 7, 7];
    let log = [
        Move::react(0, &[1]),
        Move::react(0, &[1]),
        Move::react(3, &[5]),
        Move::abort(2),
        Move::react(3, &[2]),
        Move::abort(1),
    ];
    // The second transaction's message was the start's third, the first's its second.
    let serial = [
        Move::react(0, &[2]),
        Move::react(3, &[3]),
        Move::abort(1),
        Move::react(0, &[1]),
        Move::react(3, &[3]),
        Move::abort(2),
    ];
    gives(serialize(&table, &start, &log_words(&log)), &log_words(&serial));
}

// Catches 14 that looks at the log's rules only, or at every rule with an emit.
#[test]
fn an_emitting_begin_is_refused() {
    let (mut table, start) = (Table::from_words(&two_lot::table()).unwrap(), two_lot::start());
    gives(serialize(&table.words(), &start, &[0]), &[0]);
    table.rules.push(vec![Atom::consume(1), Atom::constant(role::EMIT, 1, 4)]);
    gives(serialize(&table.words(), &start, &[0]), &[0]);
    table.rules.push(vec![Atom::consume(1), Atom::constant(role::EMIT, 1, 4), Atom::BEGIN]);
    refused(serialize(&table.words(), &start, &[0]), 14);
    refused(serialize(&table.words(), &start, &log_words(&case_d())), 14);
}

// Catches a missing 15 at the start or the end, also for logs without moves.
#[test]
fn an_open_transaction_is_refused() {
    let table = two_lot::table();
    let open = [1, 2, 1, 0x0300_0001];
    refused(serialize(&table, &open, &[0]), 15);
    refused(serialize(&table, &open, &log_words(&[Move::commit(1)])), 15);
    refused(serialize(&table, &open, &log_words(&[Move::commit(2)])), 15);
    for moves in 1..6 {
        refused(serialize(&table, &two_lot::start(), &log_words(&case_d()[..moves])), 15);
    }
    assert_eq!(
        serialize(&table, &two_lot::start(), &log_words(&[Move::react(0, &[0]), Move::abort(1)])).0,
        Answer::MoveRefused { place: 1, own: 10 }
    );
}

// Catches any difference on logs that are not closed, on tables of all kinds.
#[test]
fn random_open_logs() {
    let mut random = Random::new(504);
    let mut answers = [0; 18];
    for round in 0..6_000 {
        let table = table(&mut random, if round % 2 == 0 { Shape::Small } else { Shape::Closable });
        let start = state(&mut random, &table, 20, round % 5 == 0);
        let moves = random.index(12);
        let mut log = accepted(&mut random, &table, &start, moves);
        if round % 3 == 0 && !log.is_empty() {
            let at = random.index(log.len());
            log.remove(at);
        }
        answers[serialize(&table.words(), &start.words(), &log_words(&log)).0.number() as usize] += 1;
    }
    for number in [0, 14, 15, 16] {
        assert!(answers[number] > 100, "{number}: {answers:?}");
    }
}

// Catches a target that is asked for a state's size, or for one word too many or too few.
#[test]
fn targets_of_a_serial_log() {
    let (table, start, log) = (two_lot::table(), two_lot::start(), log_words(&case_d()));
    for room in (0..40).chain(2_040..2_060) {
        let (answer, _) = on_target(SERIALIZE, [&table, &start, &log], room);
        assert_eq!(answer, if room < 31 { Answer::Refused(6) } else { Answer::Accepted(31) });
    }
    for room in 0..3 {
        let (answer, _) = on_target(SERIALIZE, [&table, &start, &[0]], room);
        assert_eq!(answer, if room < 1 { Answer::Refused(6) } else { Answer::Accepted(1) });
    }
}

// Catches refusals in another order than 01's: every set of faults.
#[test]
fn the_first_fault_counts() {
    // 150 stands for 15 at the start, 151 for 15 at the end.
    const ORDER: [u32; 11] = [1, 2, 3, 4, 13, 6, 14, 150, 16, 151, 17];
    let number = |fault: u32| if fault >= 150 { 15 } else { fault };
    assert_eq!(ORDER.map(number), order::SERIALIZE);
    for set in 0..1u32 << ORDER.len() {
        let faults: Vec<u32> = (0..ORDER.len()).filter(|bit| set >> bit & 1 == 1).map(|bit| ORDER[bit]).collect();
        let has = |number| faults.contains(&number);
        let (mut rules, ..) = shrinking(8);
        if has(14) {
            rules.rules.push(vec![Atom::consume(0), Atom::constant(role::EMIT, 0, 0), Atom::BEGIN]);
        }
        let mut table = rules.words();
        if has(2) {
            *table.last_mut().unwrap() ^= 0xF000_0000;
        }
        if has(1) {
            table.push(0);
        }
        let mut entries = vec![Entry::message(0, 1, 5); if has(17) { 1_024 } else { 1_000 }];
        entries[..8].fill(Entry::message(0, 0, 5));
        if has(150) {
            entries[9] = Entry::member_mark(1, 1);
        }
        if has(4) {
            entries[10].kind = 9;
        }
        let mut start = State { next: 2, entries }.words();
        if has(3) {
            start[1] = 65_537;
        }
        let mut moves = vec![Move::react(0, &[0, 1, 2, 3]), Move::react(1, &[100]), Move::commit(2)];
        if has(151) {
            moves.push(Move::react(0, &[0, 1, 2, 3]));
        }
        if has(16) {
            moves.push(Move::abort(2));
        }
        let mut log = log_words(&moves);
        if has(13) {
            log.pop();
        }
        let room = if has(6) { 5 * moves.len() } else { 1 + 5 * moves.len() };
        let (answer, _) = on_target(SERIALIZE, [&table, &start, &log], room);
        let first = faults.first().copied().map_or(0, number);
        assert_eq!(answer.number(), first, "{faults:?}");
        if first == 16 {
            assert_eq!(answer, Answer::MoveRefused { place: moves.len() as u32 - 1, own: 9 });
        }
    }
}

// Catches a trap on noise in any part, and a wrong count or length that passes.
#[test]
fn noise_gets_one_answer() {
    let mut random = Random::new(505);
    let (table, start, log) = (two_lot::table(), two_lot::start(), log_words(&case_d()));
    for cut in 0..log.len() {
        refused(serialize(&table, &start, &log[..cut]), 13);
    }
    refused(serialize(&table, &start, &log_words(&vec![Move::commit(1); 1_025])), 13);
    for _ in 0..4_000 {
        let mut parts = [table.clone(), start.clone(), log.clone()];
        let part = random.index(3);
        let length = random.pick(&[0, 1, 4, 5, 6, 12, 31, 200]);
        if random.chance(30) {
            parts[part] = (0..length).map(|_| random.edge_word()).collect();
        } else {
            let at = random.index(parts[part].len());
            parts[part][at] = random.edge_word();
        }
        let room = random.pick(&[0, 1, 30, 31, 32]);
        on_target(SERIALIZE, [&parts[0], &parts[1], &parts[2]], room);
    }
    let long: Vec<u32> = (0..100_000).map(|_| random.word()).collect();
    for part in 0..3 {
        let mut parts = [&table[..], &start[..], &log[..]];
        parts[part] = &long;
        on_target(SERIALIZE, parts, 31);
    }
}
