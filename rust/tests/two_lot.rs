//! The crate as a buyer uses it, on document 01's two-lot plant.
use coordinator::*;

// The plant is the example's, so that its words are held to 01's digits too.
#[allow(dead_code)]
#[path = "../examples/two_lot.rs"]
mod example;

use example::{log, start, table};

// Catches a builder that puts a field or a column in the wrong place: the digits are 01's.
#[test]
fn builders_write_the_words_of_01() {
    let atoms = [
        0x0000_0000,
        0x2000_0000,
        0x3102_0000,
        0x4100_0000,
        0x0002_0000,
        0x1103_0000,
        0x0003_0000,
        0x0003_0000,
        0x1101_0000,
        0x1101_0001,
        0x0002_0000,
        0x5000_0000,
    ];
    let numbers = [0, 0, 0, 0, 1, 1, 2, 2, 2, 2, 3, 3];
    assert_eq!(table(), [&[2, 1, 1, 4, 12][..], &numbers, &atoms].concat());
    assert_eq!(start(), [2, 1, 0, 0, 7, 9]);
    assert_eq!(Atom::Emit { port: 255, value: Value::Constant(0xABCD) }.word(), 0x10FF_ABCD);
    let log = log(&[react(2, &[4, 5]), commit(1), abort(2)]);
    assert_eq!(log, [3, 2, 0x0100_0001, 0x0200_0002, 4, 5, 0, 0, 0, 0, 0, 0, 0, 0, 0, 0]);
}

// Catches a reading of words that differs from their writing, or that trusts a wrong layout.
#[test]
fn words_are_read_back() {
    let items = [
        Item::Message { port: 3, value: 7 },
        Item::Compensation { port: 1, value: 65_535 },
        Item::AbortMark,
        Item::MemberMark { id: 5 },
        Item::Other(0x0200_0001),
        Item::Other(0xFF00_0000),
    ];
    let words = items.iter().fold(StateBuilder::new(6), |state, &item| state.entry(5, item)).words();
    let read: Vec<Entry> = State::new(&words).entries().unwrap().collect();
    assert_eq!(read, items.map(|item| Entry { owner: 5, item }));
    assert_eq!(State::new(&words).next(), Some(6));
    let moves = [react(1, &[1, 2, 3, 4]), commit(9)];
    let log = log(&moves);
    assert_eq!(Log::new(&log).moves().unwrap().collect::<Vec<_>>(), moves);
    for wrong in [&[][..], &[1], &[1, 1, 0], &[u32::MAX, 1], &[0x8000_0000, 1], &[0x3333_3334, 0]] {
        assert!(State::new(wrong).entries().is_none() && Log::new(wrong).moves().is_none(), "{wrong:?}");
    }
}

// Catches a number that is lost or doubled on its way to a refusal, and a text without it.
#[test]
fn refusals_have_their_numbers() {
    for number in (1..=18).filter(|&number| number != 16) {
        let refusal = Refusal::from_number(number);
        assert!(!matches!(refusal, Refusal::Unknown(_)), "{number}");
        assert_eq!(refusal.number(), number);
        assert!(refusal.to_string().starts_with(&format!("refused with {number}: ")), "{refusal}");
        assert!(!refusal.to_string().contains("not known"), "{refusal}");
        assert_eq!(refusal.own(), None);
    }
    let refusal = Refusal::MoveRefused { place: 4, own: 10 };
    assert_eq!((refusal.number(), refusal.own()), (16, Some(Refusal::EndNotAllowed)));
    assert!(refusal.to_string().starts_with("refused with 16: move 4 of the log is refused with 10: "), "{refusal}");
    for unknown in [0, 16, 20, u32::MAX] {
        assert_eq!(Refusal::from_number(unknown), Refusal::Unknown(unknown));
    }
}

// Catches a check whose parts are swapped on the way, or whose answer is.
#[test]
fn checks() {
    let (table, start) = (table(), start());
    assert_eq!(check_table(Table::new(&table)), Ok(()));
    assert_eq!(check_state(Table::new(&table), State::new(&start)), Ok(()));
    assert_eq!(check_table(Table::new(&[])), Err(Refusal::TableSizes));
    assert_eq!(check_state(Table::new(&table), State::new(&[])), Err(Refusal::StateSizes));
    let mut wrong = table.clone();
    wrong[28] = 0x6000_0000;
    assert_eq!(check_table(Table::new(&wrong)), Err(Refusal::TableContents));
    assert_eq!(check_state(Table::new(&table), State::new(&[1, 1, 1, 7])), Err(Refusal::StateContents));
}

// Catches a move that gives more or fewer words than were written, and a begin that is counted as an end.
#[test]
fn a_move() {
    let (table, start) = (table(), start());
    let mut target = [u32::MAX; STATE_TARGET_WORDS];
    let mv = react(0, &[0]);
    let after = make_move(Table::new(&table), State::new(&start), Move::new(&mv), &mut target).unwrap();
    let items = [0x0000_0009, 0x0300_0001, 0x0002_0007, 0x0100_0007];
    assert_eq!((after.state.words(), after.members), (&[&[4, 2, 0, 1, 1, 1][..], &items].concat()[..], 0));
    let short = &mut target[1..];
    let refused = make_move(Table::new(&table), State::new(&start), Move::new(&mv), short);
    assert_eq!(refused, Err(Refusal::TargetTooShort));
}

fn case_a() -> [[u32; MOVE_WORDS]; 6] {
    [react(0, &[0]), react(0, &[0]), react(1, &[1]), react(1, &[3]), react(2, &[4, 5]), commit(1)]
}

/// The state after so many moves of (a).
fn after(moves: usize) -> Vec<u32> {
    let mut target = [0; STATE_TARGET_WORDS];
    let log = log(&case_a()[..moves]);
    run(Table::new(&table()), State::new(&start()), Log::new(&log), &mut target).unwrap().state.words().to_vec()
}

// Catches a run whose answer or end state is not 01's, and one that counts transactions for members: cases (a)
// and (b).
#[test]
fn a_run() {
    let (table, start) = (table(), start());
    let mut target = [0; STATE_TARGET_WORDS];
    let a = case_a();
    let end = run(Table::new(&table), State::new(&start), Log::new(&log(&a)), &mut target).unwrap();
    assert_eq!((end.state.words(), end.members), (&[2, 3, 0, 0, 0x0001_0007, 0x0001_0009][..], 2));
    let b = [&a[..4], &[commit(1)]].concat();
    let refused = run(Table::new(&table), State::new(&start), Log::new(&log(&b)), &mut target);
    assert_eq!(refused, Err(Refusal::MoveRefused { place: 4, own: 10 }));
}

fn case_d() -> [[u32; MOVE_WORDS]; 6] {
    [react(0, &[0]), react(0, &[0]), react(3, &[1]), react(3, &[3]), abort(2), abort(1)]
}

// Catches figures of a tally that are swapped or lost on the way: (a), (c), (d), and a log without moves.
#[test]
fn tallies() {
    let (table, start) = (table(), start());
    let c = [react(0, &[0]), react(0, &[0]), react(1, &[1]), react(3, &[3]), abort(2)];
    let runs = [(&case_a()[..], [6, 2, 2, 0]), (&c, [5, 2, 0, 1]), (&case_d(), [6, 2, 0, 2]), (&[], [0; 4])];
    let mut target = [u32::MAX; STATE_TARGET_WORDS];
    for (moves, [made, begun, committed, aborted]) in runs {
        let end = run(Table::new(&table), State::new(&start), Log::new(&log(moves)), &mut target).unwrap();
        assert_eq!(end.tally, Tally { moves: made, begun, committed, aborted });
        assert_eq!(end.members, committed + aborted);
    }
}

// Catches a serial log that is the first log, and an empty one taken for refusal 1: (d) and (h).
#[test]
fn a_serial_log() {
    let (table, start) = (table(), start());
    let d = case_d();
    let serial = [react(0, &[1]), react(3, &[2]), abort(1), react(0, &[0]), react(3, &[2]), abort(2)];
    let mut target = vec![0; log_target_words(d.len())];
    let made = serialize(Table::new(&table), State::new(&start), Log::new(&log(&d)), &mut target).unwrap();
    assert_eq!(made.words(), log(&serial));
    let empty = serialize(Table::new(&table), State::new(&start), Log::new(&[0]), &mut target).unwrap();
    assert_eq!(empty.words(), [0]);
}

// Catches an abort mark that does not keep its transaction from a reaction, alone and in a log.
#[test]
fn an_abort_mark() {
    let table = table();
    let state = StateBuilder::new(2)
        .entry(1, Item::MemberMark { id: 1 })
        .entry(1, Item::Compensation { port: 0, value: 7 })
        .message(1, 2, 7)
        .entry(1, Item::AbortMark)
        .words();
    let (table, state) = (Table::new(&table), State::new(&state));
    let mut target = [0; STATE_TARGET_WORDS];
    let refused = make_move(table, state, Move::new(&react(1, &[2])), &mut target);
    assert_eq!(refused, Err(Refusal::TransactionAborting));
    let refused = run(table, state, Log::new(&log(&[react(1, &[2]), abort(1)])), &mut target).unwrap_err();
    assert_eq!(refused, Refusal::MoveRefused { place: 0, own: 18 });
    assert_eq!(refused.own(), Some(Refusal::TransactionAborting));
    assert_eq!(preview(table, state, Move::new(&react(1, &[2]))), Err(Refusal::TransactionAborting));
    assert_eq!(enabled_moves(table, state).unwrap().collect::<Vec<_>>(), [abort(1)]);
    let end = make_move(table, state, Move::new(&abort(1)), &mut target).unwrap();
    assert_eq!((end.state.words(), end.members), (&[1, 2, 0, 7][..], 1));
}

// Catches members that are lost or swapped for the words on the way, and a run that tells those of its last move
// or of its last end: three members end, then one that began before them, then a message moves.
#[test]
fn members_of_moves_and_runs() {
    let table = TableBuilder::new(1, 0, 0)
        .rule([Atom::Consume { port: 0 }, Atom::Emit { port: 0, value: Value::Received(0) }])
        .words();
    let four = [(2, 2), (1, 1), (2, 4), (2, 3)];
    let start = four
        .into_iter()
        .fold(StateBuilder::new(9), |state, (owner, id)| state.entry(owner, Item::MemberMark { id }))
        .message(0, 0, 7)
        .entry(2, Item::AbortMark)
        .words();
    let table = Table::new(&table);
    let (mut state, mut target) = (start.clone(), [0; STATE_TARGET_WORDS]);
    let moves = [(abort(2), 3), (commit(1), 1), (react(0, &[0]), 0)];
    for (mv, members) in moves {
        let foreseen = preview(table, State::new(&state), Move::new(&mv)).unwrap();
        let made = make_move(table, State::new(&state), Move::new(&mv), &mut target).unwrap();
        assert_eq!((foreseen.members, made.members), (members, members), "{mv:x?}");
        state = made.state.words().to_vec();
    }
    let log = log(&moves.map(|(mv, _)| mv));
    let end = run(table, State::new(&start), Log::new(&log), &mut target).unwrap();
    assert_eq!((end.state.words(), end.members), (&state[..], 4));
    // All were open at the start.
    assert_eq!(end.tally, Tally { moves: 3, begun: 0, committed: 1, aborted: 3 });
    assert_eq!(run(table, State::new(&start), Log::new(&[0]), &mut target).unwrap().members, 0);
}

/// The figures of a preview, or why the move would be refused.
fn previewed(table: &[u32], state: &[u32], mv: &[u32]) -> Result<[u32; 4], Refusal> {
    let preview = preview(Table::new(table), State::new(state), Move::new(mv));
    preview.map(|after| [after.entries, after.next, after.id, after.members])
}

// Catches a preview whose figures are swapped, or are not those of the state that the move leaves: (a).
#[test]
fn previews_of_case_a() {
    let figures = [[4, 2, 1, 0], [6, 3, 2, 0], [6, 3, 1, 0], [6, 3, 2, 0], [6, 3, 1, 0], [2, 3, 1, 2]];
    for (moves, (mv, figures)) in case_a().iter().zip(figures).enumerate() {
        assert_eq!(previewed(&table(), &after(moves), mv), Ok(figures), "{moves}");
        let left = after(moves + 1);
        let left = State::new(&left);
        assert_eq!([left.entries().unwrap().len() as u32, left.next().unwrap()], figures[..2], "{moves}");
    }
}

// Catches a preview that is refused otherwise than the move would be: (b), (e), (f), (g), and 1 to 5.
#[test]
fn refused_previews() {
    let cases = [
        (4, commit(1), Refusal::EndNotAllowed),
        (4, react(2, &[4, 4]), Refusal::WrongPick),
        (1, abort(1), Refusal::EndNotAllowed),
        (2, commit(3), Refusal::NoTransaction),
    ];
    let mut target = [0; STATE_TARGET_WORDS];
    for (moves, mv, refusal) in cases {
        let (table, state) = (table(), after(moves));
        assert_eq!(previewed(&table, &state, &mv), Err(refusal));
        let made = make_move(Table::new(&table), State::new(&state), Move::new(&mv), &mut target);
        assert_eq!(made, Err(refusal));
    }
    let (table, start, mv) = (table(), start(), react(0, &[0]));
    let mut wrong = table.clone();
    wrong[28] = 0x6000_0000;
    assert_eq!(previewed(&[], &[], &[]), Err(Refusal::TableSizes));
    assert_eq!(previewed(&wrong, &[], &[]), Err(Refusal::TableContents));
    assert_eq!(previewed(&table, &[], &[]), Err(Refusal::StateSizes));
    assert_eq!(previewed(&table, &[1, 1, 1, 7], &[]), Err(Refusal::StateContents));
    assert_eq!(previewed(&table, &start, &mv[..4]), Err(Refusal::MoveForm));
}

// Catches a preview that names another transaction than the one concerned: none for a global rule without
// begin, the last id, the smallest of those merged, and the one that ends under the id that a merge left it.
#[test]
fn the_transaction_of_a_preview() {
    let value = Value::Received(0);
    let global = TableBuilder::new(1, 0, 0).rule([Atom::Consume { port: 0 }, Atom::Emit { port: 0, value }]).words();
    let state = StateBuilder::new(9).message(0, 0, 7).words();
    assert_eq!(previewed(&global, &state, &react(0, &[0])), Ok([1, 9, 0, 0]));
    let last = StateBuilder::new(MAX_NEXT - 1).message(0, 0, 7).words();
    assert_eq!(previewed(&table(), &last, &react(0, &[0])), Ok([3, MAX_NEXT, MAX_NEXT - 1, 0]));
    let two = [5, 3].into_iter().fold(StateBuilder::new(9), |state, id| {
        state.entry(id.into(), Item::MemberMark { id }).message(id.into(), 3, 7)
    });
    assert_eq!(previewed(&table(), &two.words(), &react(2, &[1, 3])), Ok([4, 9, 3, 0]));
    assert_eq!(previewed(&table(), &two.words(), &react(2, &[3, 1])), Ok([4, 9, 3, 0]));
    let merged = [3, 5].into_iter().fold(StateBuilder::new(9), |state, id| state.entry(3, Item::MemberMark { id }));
    assert_eq!(previewed(&table(), &merged.words(), &commit(3)), Ok([0, 9, 3, 2]));
    assert_eq!(previewed(&table(), &merged.words(), &commit(5)), Err(Refusal::NoTransaction));
    let aborting = merged.entry(3, Item::Compensation { port: 0, value: 7 }).entry(3, Item::AbortMark).words();
    assert_eq!(previewed(&table(), &aborting, &abort(3)), Ok([1, 9, 3, 2]));
}

/// The log, how many moves it has, and whether it leaves none enabled; or why there is none.
fn alone(state: &[u32], budget: u32) -> Result<(Vec<u32>, u32, bool), Refusal> {
    let mut target = vec![u32::MAX; log_target_words(budget as usize)];
    let alone = run_unattended(Table::new(&table()), State::new(state), budget, &mut target)?;
    let (log, moves, still) = (alone.log.words().to_vec(), alone.moves, alone.still);
    assert!(target[log.len()..].iter().all(|&word| word == u32::MAX));
    Ok((log, moves, still))
}

// Catches an unattended run whose figures are swapped or lost on the way: it makes log (a), as far as its budget goes,
// and from the start and the end of (c) what is left to do there.
#[test]
fn the_plant_runs_alone() {
    let a = case_a();
    for budget in 0..=8 {
        let made = a.len().min(budget);
        assert_eq!(alone(&start(), budget as u32), Ok((log(&a[..made]), made as u32, budget >= a.len())), "{budget}");
    }
    assert_eq!(alone(&start(), MAX_MOVES as u32), Ok((log(&a), 6, true)));
    assert_eq!(alone(&after(6), 3), Ok((vec![0], 0, true)));
    assert_eq!(alone(&after(6), 0), Ok((vec![0], 0, true)));
    // Transaction 2 has been aborted, transaction 1 offers a merge: message 9 begins again.
    let c = [4, 3, 1, 1, 0, 1, 0x0300_0001, 0x0100_0007, 0x0000_0009, 0x0003_0007];
    let again = [react(0, &[2]), react(1, &[4]), react(2, &[2, 5]), commit(1)];
    assert_eq!(alone(&c, 9), Ok((log(&again), 4, true)));
}

// Catches a refusal that is not handed on, a target that is asked for too much or too little, and a target that is
// written though its run is refused.
#[test]
fn refused_unattended_runs() {
    let (table, start) = (table(), start());
    let mut target = [7; log_target_words(6)];
    let mut refused = |table: &[u32], state: &[u32], budget: u32, room: usize| {
        run_unattended(Table::new(table), State::new(state), budget, &mut target[..room]).err()
    };
    let mut wrong = table.clone();
    wrong[28] = 0x6000_0000;
    assert_eq!(refused(&[], &[], u32::MAX, 0), Some(Refusal::TableSizes));
    assert_eq!(refused(&wrong, &[], u32::MAX, 0), Some(Refusal::TableContents));
    assert_eq!(refused(&table, &[], u32::MAX, 0), Some(Refusal::StateSizes));
    assert_eq!(refused(&table, &[1, 1, 1, 7], u32::MAX, 0), Some(Refusal::StateContents));
    assert_eq!(refused(&table, &start, MAX_MOVES as u32 + 1, 0), Some(Refusal::BudgetTooLarge));
    assert_eq!(refused(&table, &start, MAX_MOVES as u32, 31), Some(Refusal::TargetTooShort));
    assert_eq!(refused(&table, &start, 6, 30), Some(Refusal::TargetTooShort));
    assert_eq!(refused(&table, &start, 0, 0), Some(Refusal::TargetTooShort));
    assert_eq!(target, [7; 31]);
    let alone = run_unattended(Table::new(&table), State::new(&start), 6, &mut target).unwrap();
    // The log is handed on as it is.
    let mut end = [0; STATE_TARGET_WORDS];
    let ran = run(Table::new(&table), State::new(&start), alone.log, &mut end).unwrap();
    assert_eq!((ran.state.words(), ran.tally.moves, ran.members), (&after(6)[..], alone.moves, 2));
}

// Catches a page whose moves or length are lost on the way, and a target that is asked for too much.
#[test]
fn a_page() {
    let (table, state) = (table(), after(2));
    let (table, state) = (Table::new(&table), State::new(&state));
    let all = [react(1, &[1]), react(1, &[4]), react(3, &[1]), react(3, &[4])];
    let mut target = [u32::MAX; page_target_words(9)];
    let page = list_moves(table, state, 1, 2, &mut target).unwrap();
    assert_eq!((page.words(), page.length()), (&all[1..3].concat()[..], 4));
    assert_eq!(page.moves().collect::<Vec<_>>(), all[1..3]);
    let page = list_moves(table, state, 2, 9, &mut target).unwrap();
    assert_eq!((page.moves().len(), page.length()), (2, 4));
    let behind = list_moves(table, state, u64::MAX, 9, &mut target).unwrap();
    assert_eq!((behind.moves().len(), behind.length()), (0, 4));
    assert_eq!(list_moves(table, state, 0, 0, &mut []).map(Page::length), Ok(4));
    assert_eq!(list_moves(table, state, 0, 10, &mut target), Err(Refusal::TargetTooShort));
    assert_eq!([page_target_words(0), page_target_words(255), page_target_words(256)], [0, 1_275, 1_280]);
    assert_eq!([page_target_words(257), page_target_words(u32::MAX)], [1_280; 2]);
}

// Catches an iterator that loses or repeats moves, or that starts on a list that is refused.
#[test]
fn all_enabled_moves() {
    let (table, start, begun) = (table(), start(), after(2));
    let moves = |state: &[u32]| enabled_moves(Table::new(&table), State::new(state)).map(Iterator::collect::<Vec<_>>);
    assert_eq!(moves(&start), Ok(vec![react(0, &[0]), react(0, &[1])]));
    assert_eq!(moves(&begun), Ok(vec![react(1, &[1]), react(1, &[4]), react(3, &[1]), react(3, &[4])]));
    // Transaction 2 is ready for its commit, transaction 1 for its abort.
    let ends = StateBuilder::new(3)
        .entry(2, Item::MemberMark { id: 2 })
        .entry(1, Item::AbortMark)
        .entry(1, Item::MemberMark { id: 1 });
    assert_eq!(moves(&ends.words()), Ok(vec![commit(2), abort(1)]));
    assert_eq!(moves(&[0, 1]), Ok(vec![]));
    assert_eq!(moves(&[0, 0]), Err(Refusal::StateSizes));
    assert_eq!(enabled_moves(Table::new(&[]), State::new(&start)).err(), Some(Refusal::TableSizes));
}

// Catches a seam between two pages, and a place that is off by one after a skip: merges of any two out
// of 40 messages, which are 40 times 39.
#[test]
fn enabled_moves_over_several_pages() {
    let table = table();
    let state = (0..40)
        .fold(StateBuilder::new(2).entry(1, Item::MemberMark { id: 1 }), |state, value| state.message(1, 3, value));
    let state = state.words();
    let expected: Vec<[u32; MOVE_WORDS]> = (1..=40)
        .flat_map(|first| (1..=40).filter(move |&second| second != first).map(move |second| react(2, &[first, second])))
        .collect();
    let moves = || enabled_moves(Table::new(&table), State::new(&state)).unwrap();
    assert_eq!((moves().length(), expected.len()), (1_560, 1_560));
    assert_eq!(moves().collect::<Vec<_>>(), expected);
    for skipped in [0, 1, 255, 256, 257, 511, 512, 1_000, 1_559, 1_560, 1_561, usize::MAX] {
        assert_eq!(moves().nth(skipped), expected.get(skipped).copied(), "{skipped}");
        assert!(moves().skip(skipped).eq(expected.iter().copied().skip(skipped)), "{skipped}");
        assert!(moves().take(skipped).eq(expected.iter().copied().take(skipped)), "{skipped}");
    }
    assert!(moves().step_by(100).eq(expected.iter().copied().step_by(100)));
    assert_eq!((moves().count(), moves().last()), (1_560, expected.last().copied()));
    let mut some = moves();
    some.nth(299);
    assert_eq!((some.len(), some.size_hint(), some.length()), (1_260, (1_260, Some(1_260)), 1_560));
    assert_eq!(some.clone().next(), Some(expected[300]));
    assert_eq!(format!("{some:?}"), "EnabledMoves { place: 300, length: 1560, .. }");
    assert_eq!((some.clone().count(), some.clone().last()), (1_260, Some(expected[1_559])));
    assert_eq!(some.nth(1_259), Some(expected[1_559]));
    assert_eq!((some.next(), some.next(), some.len()), (None, None, 0));
    assert_eq!((some.clone().count(), some.last()), (0, None));
}
