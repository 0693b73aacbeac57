//! Plants that never rest, of chosen sizes: for the benchmark of unattended runs and for tests at full size. Whatever
//! is made, about as many entries stay.
use crate::random::Random;
use crate::words::{role, Atom, Entry, State, Table};

/// A kind of plant.
#[derive(Clone, Copy)]
pub struct Plant {
    pub name: &'static str,
    /// A table of so many rules (7 to 64), and a state of so many entries (16 to 1,024) or a few less.
    pub make: fn(&mut Random, u32, usize) -> (Table, State),
}

pub const PLANTS: [Plant; 7] = [
    Plant { name: "global", make: global },
    Plant { name: "local", make: |random, rules, n| local(random, rules, n, false) },
    Plant { name: "stopped", make: |random, rules, n| local(random, rules, n, true) },
    Plant { name: "pairs", make: pairs },
    Plant { name: "merges", make: merges },
    Plant { name: "commits", make: commits },
    Plant { name: "aborts", make: aborts },
];

/// The plant of this name.
pub fn plant(name: &str) -> Plant {
    PLANTS.into_iter().find(|plant| plant.name == name).unwrap_or_else(|| panic!("no plant {name}"))
}

/// A port with messages that no rule can take, since its other port has none, and that port.
const IDLE: u32 = 1;
const EMPTY: u32 = 2;

/// Rules that find nothing, or only a part of what they take, up to so many; the plant's own come behind them.
fn table(ports: [u32; 3], rules: u32, own: Vec<Vec<Atom>>) -> Table {
    let [global, local, merge] = ports;
    let idle = |number: usize| match number % 3 {
        0 => vec![Atom::consume(EMPTY), Atom::received(role::EMIT, EMPTY, 0)],
        1 => vec![Atom::consume(IDLE), Atom::consume(EMPTY), Atom::BEGIN],
        _ => vec![Atom::consume(IDLE), Atom::consume(IDLE), Atom::consume(IDLE), Atom::consume(EMPTY)],
    };
    let idle = (0..rules as usize - own.len()).map(idle);
    Table { global, local, merge, rules: idle.chain(own).collect() }
}

/// Rules that pass a message on from port to port, round and round, each together with what else it takes and gives
/// back.
fn passing(first: u32, rules: u32, beside: &[u32]) -> Vec<Vec<Atom>> {
    let rule = |number: u32| {
        let takes = [&[first + number][..], beside].concat();
        let gives = [&[first + (number + 1) % rules][..], beside].concat();
        let gives = gives.iter().zip(0..).map(|(&port, take)| Atom::received(role::EMIT, port, take));
        takes.iter().map(|&port| Atom::consume(port)).chain(gives).collect()
    };
    (0..rules).map(rule).collect()
}

fn shuffled(random: &mut Random, next: u32, mut entries: Vec<Entry>) -> State {
    random.shuffle(&mut entries);
    State { next, entries }
}

/// Up to 64 messages go round over as many ports as there are rules, each time together with one of all others.
fn global(random: &mut Random, rules: u32, n: usize) -> (Table, State) {
    let table = Table { global: rules + 1, local: 0, merge: 0, rules: passing(0, rules, &[rules]) };
    let round = (n / 4).min(64);
    let port = |random: &mut Random, at: usize| if at < round { random.below(rules) } else { rules };
    let entries = (0..n).map(|at| Entry::message(0, port(random, at), at as u32)).collect();
    (table, shuffled(random, 1, entries))
}

/// A transaction that nothing is done with: its mark, a compensation, and what keeps it from a commit.
fn waiting(id: u32, port: u32) -> [Entry; 3] {
    [Entry::member_mark(id, id), Entry::compensation(id, 0, id), Entry::message(id, port, 5)]
}

/// A message in each of many transactions goes round over as many local ports as there are rules. Every other
/// transaction may be stopped.
fn local(random: &mut Random, rules: u32, n: usize, stopped: bool) -> (Table, State) {
    let table = Table { global: 1, local: rules, merge: 1, rules: passing(1, rules, &[]) };
    let ids = n as u32 / if stopped { 5 } else { 4 };
    let transaction = |id: u32| {
        let mut entries = waiting(id, rules + 1).to_vec();
        entries.push(Entry::message(id, 1 + random.below(rules), id));
        if stopped {
            entries.push(if id % 2 == 0 { Entry::abort_mark(id) } else { Entry::message(id, 0, id) });
        }
        entries
    };
    let entries = (1..=ids).flat_map(transaction).collect();
    (table, shuffled(random, ids + 1, entries))
}

/// The same with a second take, which only one in eight transactions has a message for. In the others all wait on the
/// first port, so that its rule is tried at each step.
fn pairs(random: &mut Random, rules: u32, n: usize) -> (Table, State) {
    let beside = rules + 1;
    let table = Table { global: 1, local: rules + 1, merge: 1, rules: passing(1, rules, &[beside]) };
    let ids = n as u32 / 5;
    let transaction = |id: u32| {
        let has_both = id % 8 == ids % 8;
        let (port, second) = if has_both { (1 + random.below(rules), beside) } else { (1, 0) };
        [&waiting(id, rules + 2)[..], &[Entry::message(id, port, id), Entry::message(id, second, id)]].concat()
    };
    let entries = (1..=ids).flat_map(transaction).collect();
    (table, shuffled(random, ids + 1, entries))
}

/// Messages begin transactions, two of these merge, and their commit frees both messages.
fn merges(random: &mut Random, rules: u32, n: usize) -> (Table, State) {
    let (inside, offer) = (3, 4);
    let begin = vec![
        Atom::consume(0),
        Atom::BEGIN,
        Atom::received(role::BODY, offer, 0),
        Atom::received(role::COMPENSATE, 0, 0),
    ];
    let free = [0, 1].map(|take| Atom::received(role::EMIT, 0, take));
    let merge = [&[Atom::consume(offer), Atom::consume(offer)][..], &free].concat();
    let table = table([3, 1, 1], rules, vec![begin, merge]);
    // Each becomes three entries.
    let free = n / 8;
    let mut entries: Vec<Entry> = (0..free as u32).map(|value| Entry::message(0, 0, value)).collect();
    let ids = n as u32 / 8;
    entries.extend((1..=ids).flat_map(|id| waiting(id, inside)));
    entries.resize(n - 2 * free, Entry::message(0, IDLE, 5));
    (table, shuffled(random, ids + 1, entries))
}

/// A commit frees a message that begins the next transaction.
fn commits(random: &mut Random, rules: u32, n: usize) -> (Table, State) {
    let begin = vec![Atom::consume(0), Atom::BEGIN, Atom::received(role::BODY, 0, 0)];
    let table = table([3, 0, 0], rules, vec![begin]);
    let ids = 3 * n as u32 / 8;
    let mut entries: Vec<Entry> =
        (1..=ids).flat_map(|id| [Entry::member_mark(id, id), Entry::message(id, 0, id)]).collect();
    entries.resize(n, Entry::message(0, IDLE, 5));
    (table, shuffled(random, ids + 1, entries))
}

/// An abort gives a message back that begins the next transaction, which is stopped too.
fn aborts(random: &mut Random, rules: u32, n: usize) -> (Table, State) {
    let begin = vec![Atom::consume(0), Atom::BEGIN, Atom::received(role::COMPENSATE, 0, 0), Atom::ABORT];
    let table = table([3, 1, 0], rules, vec![begin]);
    let ids = n as u32 / 4;
    let stopped = |id: u32| [Entry::member_mark(id, id), Entry::compensation(id, 0, id), Entry::abort_mark(id)];
    let mut entries: Vec<Entry> = (1..=ids).flat_map(stopped).collect();
    entries.resize(n, Entry::message(0, IDLE, 5));
    (table, shuffled(random, ids + 1, entries))
}
