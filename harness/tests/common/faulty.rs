//! Moves with faults, for the calls that take a single one.
use super::after_a;
use harness::random::Random;
use harness::two_lot::{self, case_a};
use harness::words::{role, Atom, Entry, Move, State, Table};

/// Moves for the two-lot plant after two moves of (a) whose words are wrong, or name a transaction that is not
/// open, with their numbers.
pub fn wrong_words() -> Vec<(Vec<u32>, u32)> {
    let head = |head: u32| vec![head, 0, 0, 0, 0];
    let heads =
        [0x0000_0004, 0x0001_0000, 0x00FF_FFFF, 0x0100_0000, 0x0200_0000, 0x0101_0000, 0x0201_0000, 0x01FF_FFFF];
    let kinds = (3..256).flat_map(|kind| [kind << 24 | 1, kind << 24]);
    let mut all: Vec<_> = heads.into_iter().chain(kinds).map(|word| (head(word), 5)).collect();
    all.extend([0x0100_0003, 0x0100_FFFF, 0x0200_FFFF].map(|word| (head(word), 9)));
    for unused in 0..4 {
        for word in [1, u32::MAX] {
            let mut end = Move::commit(1).words();
            end[1 + unused] = word;
            all.push((end, 5));
            if unused > 0 {
                let mut one = Move::react(1, &[1]).words();
                one[1 + unused] = word;
                all.push((one, 5));
            }
        }
    }
    all
}

/// Words that a move might be, of many lengths.
pub fn any_words(random: &mut Random) -> impl Iterator<Item = Vec<u32>> + '_ {
    let lengths = (0..=12).chain([100, 100_000]).flat_map(|length| [length; 200]);
    lengths.map(|length| (0..length).map(|_| random.edge_word()).collect())
}

/// The two-lot plant after some moves of (a), and the next one, with noise in one of the three.
pub fn noise(random: &mut Random) -> [Vec<u32>; 3] {
    let made = random.index(6);
    let mut parts = [two_lot::table(), after_a(made), case_a()[made].words()];
    let part = random.index(3);
    let length = random.pick(&[0, 1, 4, 5, 6, 12, 29, 200]);
    match random.below(3) {
        0 => parts[part] = (0..length).map(|_| random.edge_word()).collect(),
        _ => {
            let at = random.index(parts[part].len());
            parts[part][at] = random.edge_word();
        }
    }
    parts
}

/// The plant's start and its first move, with one of the three much too long.
pub fn long_noise(random: &mut Random) -> [[Vec<u32>; 3]; 3] {
    let long: Vec<u32> = (0..100_000).map(|_| random.word()).collect();
    [0, 1, 2].map(|part| {
        let mut parts = [two_lot::table(), two_lot::start(), case_a()[0].words()];
        parts[part].clone_from(&long);
        parts
    })
}

/// A move that faults are put into.
#[derive(Clone, Copy, Debug, PartialEq, Eq)]
enum Kind {
    Begin,
    Local,
    Merge,
    Commit,
    Abort,
}

impl Kind {
    /// The faults that a move of this kind can have besides 1 to 6. Only a begin can lack an id, and it picks
    /// nothing inside a transaction, so 18 and 11 never meet. Messages on merge ports are always inside
    /// transactions, so a merge has no 8. 9 and 10 are of ends.
    fn faults(self) -> &'static [u32] {
        match self {
            Kind::Begin => &[7, 8, 11, 12],
            Kind::Local => &[7, 8, 18, 12],
            Kind::Merge => &[7, 18, 12],
            Kind::Commit | Kind::Abort => &[9, 10],
        }
    }

    fn mv(self, has: impl Fn(u32) -> bool) -> Move {
        match self {
            Kind::Begin => Move::react(0, &[0, 1]),
            Kind::Local => Move::react(1, &[6, 7]),
            Kind::Merge => Move::react(2, &[8, 9]),
            Kind::Commit => Move::commit(if has(9) { 2 } else { 3 }),
            Kind::Abort if has(10) => Move::abort(3),
            Kind::Abort => Move::abort(if has(9) { 2 } else { 4 }),
        }
    }
}

/// Rules for all of these kinds, each of which leaves one entry more.
fn rules(has: impl Fn(u32) -> bool) -> Vec<u32> {
    let begin = vec![
        Atom::consume(0),
        Atom::consume(0),
        Atom::BEGIN,
        Atom::constant(role::BODY, 1, 0),
        Atom::constant(role::BODY, 1, 0),
    ];
    let grow = |port| [vec![Atom::consume(port); 2], vec![Atom::constant(role::EMIT, port, 0); 3]].concat();
    let other = vec![Atom::new(role::CONSUME, if has(2) { 1 } else { 0 }, 0, 0)];
    let mut table = Table { global: 1, local: 1, merge: 1, rules: vec![begin, grow(1), grow(2), other] }.words();
    if has(1) {
        table.push(0);
    }
    table
}

fn entries(has: impl Fn(u32) -> bool) -> Vec<u32> {
    let mut entries = vec![
        Entry::message(0, 0, 1),
        Entry::message(if has(8) { 3 } else { 0 }, 0, 2),
        Entry::member_mark(3, 3),
        Entry::message(3, if has(10) { 1 } else { 0 }, 2),
        Entry::member_mark(5, 5),
        Entry::member_mark(6, 6),
        Entry::message(5, 1, 3),
        Entry::message(if has(8) { 6 } else { 5 }, 1, 4),
        Entry::message(6, 2, 5),
        Entry::message(5, 2, 6),
        Entry::member_mark(4, 4),
        Entry::abort_mark(4),
    ];
    if has(18) {
        entries.push(Entry::abort_mark(5));
    }
    let n = if has(12) { 1_024 } else { 900 };
    entries.resize(n, Entry::message(0, 0, 9));
    if has(4) {
        entries[n - 1].kind = 4;
    }
    let mut state = State { next: if has(11) { 65_536 } else { 7 }, entries }.words();
    if has(3) {
        state.pop();
    }
    state
}

/// Input of a move of this kind that has exactly the faults asked for; `wrong` is the pick with fault 7.
fn faulty(faults: &[u32], kind: Kind, wrong: usize) -> ([Vec<u32>; 3], usize) {
    let has = |number| faults.contains(&number);
    let mut mv = kind.mv(has).words();
    if has(7) {
        mv[1 + wrong] = 1_024;
    }
    if has(5) {
        mv[4] = 1;
    }
    ([rules(has), entries(has), mv], if has(6) { 2_049 } else { 2_050 })
}

/// Every set of faults of this order that can meet in one move, and with them those of others that this move
/// does not have: the first one counts. Asked is with a table, a state and a move, and the words of a target.
/// Picks are tested all for 7, then for 8, then for 18: the pick with 7 stands before or behind one in a
/// transaction with an abort mark.
pub fn first_fault_counts(order: &[u32], number: impl Fn([&[u32]; 3], usize) -> u32) {
    let kinds: [(Kind, &[u32]); 7] = [
        (Kind::Begin, &[7, 8, 18, 11, 12]),
        (Kind::Local, &[7, 8, 18, 11, 12]),
        (Kind::Merge, &[7, 18, 11, 12]),
        (Kind::Commit, &[9, 18, 12]),
        (Kind::Commit, &[10, 18, 11]),
        (Kind::Abort, &[9, 18, 12]),
        (Kind::Abort, &[10, 18, 11]),
    ];
    for (kind, others) in kinds {
        let of_words = (1..=6).filter(|number| order.contains(number));
        let numbers: Vec<u32> = of_words.chain(others.iter().copied()).collect();
        for set in 0..1u32 << numbers.len() {
            let faults: Vec<u32> =
                (0..numbers.len()).filter(|bit| set >> bit & 1 == 1).map(|bit| numbers[bit]).collect();
            let counts = |number: &&u32| faults.contains(number) && (**number <= 6 || kind.faults().contains(number));
            let first = order.iter().find(counts).copied().unwrap_or(0);
            for wrong in if faults.contains(&7) { 0..2 } else { 0..1 } {
                let ([table, state, mv], room) = faulty(&faults, kind, wrong);
                assert_eq!(number([&table, &state, &mv], room), first, "{kind:?} {faults:?}");
            }
        }
    }
}
