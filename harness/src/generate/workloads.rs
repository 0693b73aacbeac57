//! Inputs of chosen sizes, every move accepted: for the benchmark and for tests at full size.
use super::logs::Walk;
use crate::random::Random;
use crate::words::{kind, role, Atom, Entry, Move, State, Table};

/// The rules that the logs use; they come last in a table, behind rules that only fill it.
const RULES: u32 = 7;
const ATOMS: usize = 24;

/// Numbers of these rules from the end of the table.
#[derive(Clone, Copy)]
enum Rule {
    /// Takes a global message into a transaction of its own, with a compensation.
    Begin,
    /// Local: makes it a merge message.
    Prepare,
    /// Merge: two transactions become one, which keeps one merge message.
    Merge,
    /// Makes the last merge message a global one.
    Finish,
    /// Makes the last merge message an abort mark.
    Stop,
    /// Global: one message for one.
    Turn,
    /// Global: four messages for four.
    Four,
}

impl Rule {
    fn of(self, table: &Table) -> u32 {
        table.rules.len() as u32 - RULES + self as u32
    }
}

/// A table of this many rules (7 to 64) and atoms (24 to 512).
pub fn table(rules: u32, atoms: usize) -> Table {
    let (global, local, merge) = if rules == RULES { (2, 1, 1) } else { (128, 64, 64) };
    let (inside, join) = (global, global + local);
    let fillers = (rules - RULES) as usize;
    let filler = |number: usize| {
        // As even as it goes; a rule of fewer than three atoms only consumes and begins.
        let length = (atoms - ATOMS) * (number + 1) / fillers - (atoms - ATOMS) * number / fillers;
        let mut rule = vec![Atom::consume(number as u32 % global), Atom::BEGIN];
        for place in 2..length {
            let role = if place < length / 2 + 1 { role::BODY } else { role::COMPENSATE };
            rule.push(Atom::received(role, place as u32 % global, 0));
        }
        rule
    };
    let mut all: Vec<Vec<Atom>> = (0..fillers).map(filler).collect();
    all.extend([
        vec![
            Atom::consume(0),
            Atom::BEGIN,
            Atom::received(role::BODY, inside, 0),
            Atom::received(role::COMPENSATE, 0, 0),
        ],
        vec![Atom::consume(inside), Atom::received(role::EMIT, join, 0)],
        vec![
            Atom::consume(join),
            Atom::consume(join),
            Atom::received(role::EMIT, 0, 0),
            Atom::received(role::EMIT, join, 1),
        ],
        vec![Atom::consume(join), Atom::received(role::EMIT, 0, 0)],
        vec![Atom::consume(join), Atom::ABORT],
        vec![Atom::consume(0), Atom::received(role::EMIT, 0, 0)],
        [[Atom::consume(0); 4], [0, 1, 2, 3].map(|which| Atom::received(role::EMIT, 0, which))].concat(),
    ]);
    let table = Table { global, local, merge, rules: all };
    assert_eq!((table.rules.len() as u32, table.atoms()), (rules, atoms));
    table
}

/// `n` messages on port 0 of the global solution.
pub fn messages(n: usize) -> State {
    State { next: 1, entries: (0..n as u32).map(|value| Entry::message(0, 0, value)).collect() }
}

/// A log of `k` reactions by global rules.
pub fn global_log(random: &mut Random, table: &Table, n: usize, k: usize) -> (State, Vec<Move>) {
    let mv = |random: &mut Random| {
        let first = random.below(n as u32 - 3);
        if random.chance(50) {
            Move::react(Rule::Turn.of(table), &[first])
        } else {
            Move::react(Rule::Four.of(table), &[first, first + 2, first + 1, first + 3])
        }
    };
    (messages(n), (0..k).map(|_| mv(random)).collect())
}

/// Transactions that begin one by one, merge until they are one, and end.
struct Group {
    /// Members still to begin.
    left: usize,
    ids: Vec<u32>,
    aborting: bool,
}

impl Group {
    fn moves(members: usize) -> usize {
        3 * members + 1
    }

    fn next(&mut self, random: &mut Random, table: &Table, state: &State) -> Move {
        if self.left > 0 {
            self.left -= 1;
            self.ids.push(state.next);
            let free: Vec<u32> = places(state, |entry| entry.owner == 0);
            return Move::react(Rule::Begin.of(table), &[random.pick(&free)]);
        }
        let on = |port: u32| {
            places(state, |entry| entry.kind == kind::MESSAGE && entry.port == port && self.ids.contains(&entry.owner))
        };
        let (local, merge) = (on(table.global), on(table.global + table.local));
        match (local.as_slice(), merge.as_slice()) {
            ([], []) if self.aborting => Move::abort(self.ids[0]),
            ([], []) => Move::commit(self.ids[0]),
            ([], [last]) if self.aborting => Move::react(Rule::Stop.of(table), &[*last]),
            ([], [last]) => Move::react(Rule::Finish.of(table), &[*last]),
            // Before a merge all members have prepared, so these are of different transactions.
            ([], [first, second, ..]) => Move::react(Rule::Merge.of(table), &[*first, *second]),
            (local, _) => Move::react(Rule::Prepare.of(table), &[random.pick(local)]),
        }
    }

    fn ended(&self, state: &State) -> bool {
        self.left == 0 && state.entries.iter().all(|entry| entry.owner != self.ids[0])
    }
}

fn places(state: &State, wanted: impl Fn(&Entry) -> bool) -> Vec<u32> {
    (0..state.entries.len()).filter(|&place| wanted(&state.entries[place])).map(|place| place as u32).collect()
}

/// A log of `k` moves with up to `n` entries: groups of transactions that merge, several at a
/// time, one in four aborting; reactions by global rules fill it up. Nothing is open at its ends.
pub fn merge_log(random: &mut Random, table: &Table, n: usize, k: usize) -> (State, Vec<Move>) {
    let (members, at_once) = if n.min(k) < 64 { (2, 2) } else { (8, 4) };
    // A begin adds two entries.
    let start = messages(n - 2 * members * at_once);
    let mut walk = Walk::new(table, &start);
    let mut groups: Vec<Group> = Vec::new();
    let mut promised = 0;
    while walk.log.len() < k {
        if groups.len() < at_once && promised + Group::moves(members) <= k {
            promised += Group::moves(members);
            groups.push(Group { left: members, ids: Vec::new(), aborting: random.chance(25) });
        } else if groups.is_empty() {
            let free: Vec<u32> = places(&walk.state, |entry| entry.owner == 0);
            assert!(walk.make(Move::react(Rule::Turn.of(table), &[random.pick(&free)])));
        } else {
            let at = random.index(groups.len());
            let mv = groups[at].next(random, table, &walk.state);
            assert!(walk.make(mv), "{mv:?} is refused");
            if groups[at].ended(&walk.state) {
                groups.remove(at);
            }
        }
    }
    assert!(groups.is_empty() && walk.log.len() == k);
    (start, walk.log)
}

/// `n` entries (16 or more) of two transactions and the global solution, these first.
pub fn mixed(front: &[Entry], n: usize) -> State {
    let marks = [Entry::member_mark(1, 1), Entry::member_mark(2, 2)];
    let rest = [
        Entry::message(0, 0, 3),
        Entry::message(1, 1, 4),
        Entry::message(0, 0, 5),
        Entry::compensation(2, 1, 6),
        Entry::message(2, 0, 7),
        Entry::message(0, 0, 8),
        Entry::compensation(1, 0, 9),
    ];
    let entries = front.iter().copied().chain(marks).chain(rest.into_iter().cycle());
    State { next: 3, entries: entries.take(n).collect() }
}

/// `n` entries, each the mark of a transaction of its own.
pub fn members(n: usize) -> State {
    let mark = |id| Entry::member_mark(id, id);
    State { next: n as u32 + 1, entries: (1..=n as u32).map(mark).collect() }
}

/// A move of each kind on a state of `n` entries (16 to 1,022), by the name of what it does.
pub fn single_moves(table: &Table, n: usize) -> Vec<(&'static str, State, Move)> {
    let (inside, join) = (table.global, table.global + table.local);
    let plain = mixed(&[], n);
    let free = places(&plain, |entry| entry.owner == 0);
    let spread = [free[free.len() - 1], free[0], free[free.len() / 2], free[1]];
    let message = |owner, port| Entry::message(owner, port, 1);
    vec![
        ("global", plain.clone(), Move::react(Rule::Four.of(table), &spread)),
        ("begin", plain.clone(), Move::react(Rule::Begin.of(table), &[free[0]])),
        ("local", mixed(&[message(1, inside)], n), Move::react(Rule::Prepare.of(table), &[0])),
        ("merge", mixed(&[message(2, join), message(1, join)], n), Move::react(Rule::Merge.of(table), &[0, 1])),
        ("commit", plain, Move::commit(1)),
        ("abort", mixed(&[Entry::abort_mark(1)], n), Move::abort(1)),
    ]
}

/// The ports of a class, global, local or merge: the first and their number.
fn ports(table: &Table, class: usize) -> (u32, u32) {
    let counts = [table.global, table.local, table.merge];
    (counts[..class].iter().sum(), counts[class])
}

/// A table of 64 rules, each of which takes four messages on ports of a class and makes four there.
pub fn fours(random: &mut Random, [global, local, merge]: [u32; 3], class: usize) -> Table {
    let mut table = Table { global, local, merge, rules: Vec::new() };
    let (first, count) = ports(&table, class);
    let mut four = |atom: fn(u32) -> Atom| [(); 4].map(|()| atom(first + random.below(count)));
    let mut rule = || [four(Atom::consume), four(|port| Atom::received(role::EMIT, port, 3))].concat();
    table.rules = (0..64).map(|_| rule()).collect();
    table
}

/// `n` entries in random order: messages on ports of a class, global ones if nothing is open, and the
/// marks of the open transactions that they are in.
pub fn spread(random: &mut Random, table: &Table, class: usize, n: usize, open: u32) -> State {
    let (first, count) = ports(table, class);
    let mut entries: Vec<Entry> = (1..=open).map(|id| Entry::member_mark(id, id)).collect();
    entries.resize_with(n, || {
        let owner = if open == 0 { 0 } else { random.between(1, open) };
        Entry::message(owner, first + random.below(count), random.below(65_536))
    });
    random.shuffle(&mut entries);
    State { next: open + 1, entries }
}
