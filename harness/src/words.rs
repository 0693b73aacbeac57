//! The words of tables, states, moves and logs, and the fields they hold. No rule is checked here.

pub const MAX_PORTS: u32 = 256;
pub const MAX_RULES: u32 = 64;
pub const MAX_ATOMS: u32 = 512;
pub const MAX_RULE_ATOMS: usize = 16;
pub const MAX_CONSUMES: usize = 4;
pub const MAX_ENTRIES: usize = 1024;
pub const MAX_NEXT: u32 = 65_536;
pub const MAX_MOVES: usize = 1024;
/// A target for a state must hold the largest one.
pub const STATE_TARGET: usize = 2 + 2 * MAX_ENTRIES;
/// A page of the list of enabled moves has no more, whatever the count.
pub const MAX_PAGE_MOVES: usize = 256;

/// The words that a target for a page of this count must have.
pub fn page_target(count: u32) -> usize {
    5 * (count as usize).min(MAX_PAGE_MOVES)
}

/// The words that a target must have for a log of so many moves, or for a budget of so many.
pub const fn log_target(moves: usize) -> usize {
    1 + 5 * moves
}

/// Roles of atoms.
pub mod role {
    /// 01: take.
    pub const CONSUME: u32 = 0;
    /// 01: give.
    pub const EMIT: u32 = 1;
    /// 01: open.
    pub const BEGIN: u32 = 2;
    /// 01: inside.
    pub const BODY: u32 = 3;
    /// 01: call-off.
    pub const COMPENSATE: u32 = 4;
    /// 01: stop.
    pub const ABORT: u32 = 5;
}

/// Modes of an atom's value.
pub mod mode {
    pub const CONSTANT: u32 = 0;
    /// The value received by a numbered consume.
    pub const RECEIVED: u32 = 1;
}

/// Kinds of entries.
pub mod kind {
    /// 01: note.
    pub const MESSAGE: u32 = 0;
    /// 01: call-off note.
    pub const COMPENSATION: u32 = 1;
    /// 01: stop mark.
    pub const ABORT_MARK: u32 = 2;
    /// 01: lot mark.
    pub const MEMBER_MARK: u32 = 3;
}

/// Kinds of moves.
pub mod act {
    pub const REACT: u32 = 0;
    /// 01: release.
    pub const COMMIT: u32 = 1;
    /// 01: call off.
    pub const ABORT: u32 = 2;
}

#[derive(Clone, Copy, Debug, PartialEq, Eq)]
pub struct Atom {
    pub role: u32,
    pub mode: u32,
    pub port: u32,
    pub value: u32,
}

impl Atom {
    pub const BEGIN: Atom = Atom::new(role::BEGIN, 0, 0, 0);
    pub const ABORT: Atom = Atom::new(role::ABORT, 0, 0, 0);

    pub const fn new(role: u32, mode: u32, port: u32, value: u32) -> Atom {
        Atom { role, mode, port, value }
    }

    pub fn consume(port: u32) -> Atom {
        Atom::new(role::CONSUME, mode::CONSTANT, port, 0)
    }

    /// An emit, a body or a compensate of this value.
    pub fn constant(role: u32, port: u32, value: u32) -> Atom {
        Atom::new(role, mode::CONSTANT, port, value)
    }

    /// An emit, a body or a compensate of the value that a consume received.
    pub fn received(role: u32, port: u32, consume: u32) -> Atom {
        Atom::new(role, mode::RECEIVED, port, consume)
    }

    pub fn word(self) -> u32 {
        self.role << 28 | self.mode << 24 | self.port << 16 | self.value
    }

    pub fn from_word(word: u32) -> Atom {
        Atom { role: word >> 28, mode: word >> 24 & 0xF, port: word >> 16 & 0xFF, value: word & 0xFFFF }
    }
}

/// 01: recipe table.
#[derive(Clone, Debug, PartialEq, Eq)]
pub struct Table {
    /// Number of global ports (01: plant ports, G).
    pub global: u32,
    /// Number of local ports (01: batch ports, L).
    pub local: u32,
    /// Number of merge ports (01: joining ports, M).
    pub merge: u32,
    pub rules: Vec<Vec<Atom>>,
}

impl Table {
    pub fn ports(&self) -> u32 {
        self.global + self.local + self.merge
    }

    pub fn atoms(&self) -> usize {
        self.rules.iter().map(Vec::len).sum()
    }

    pub fn words(&self) -> Vec<u32> {
        let mut words = vec![self.global, self.local, self.merge, self.rules.len() as u32, self.atoms() as u32];
        for (number, rule) in self.rules.iter().enumerate() {
            words.extend(rule.iter().map(|_| number as u32));
        }
        words.extend(self.rules.iter().flatten().map(|atom| atom.word()));
        words
    }

    /// The table of words that follow the layout; `None` for others.
    pub fn from_words(words: &[u32]) -> Option<Table> {
        let [global, local, merge, rules, atoms] = *words.first_chunk::<5>()?;
        if rules > MAX_RULES || words.len() as u64 != 5 + 2 * u64::from(atoms) {
            return None;
        }
        let mut table = Table { global, local, merge, rules: vec![Vec::new(); rules as usize] };
        let (numbers, atoms) = words[5..].split_at(atoms as usize);
        for (&number, &atom) in numbers.iter().zip(atoms) {
            table.rules.get_mut(number as usize)?.push(Atom::from_word(atom));
        }
        Some(table)
    }
}

#[derive(Clone, Copy, Debug, PartialEq, Eq, PartialOrd, Ord)]
pub struct Entry {
    /// 0 for the global solution (01: the plant), otherwise the id of a transaction (01: batch).
    pub owner: u32,
    pub kind: u32,
    pub port: u32,
    pub value: u32,
}

impl Entry {
    pub fn new(owner: u32, kind: u32, port: u32, value: u32) -> Entry {
        Entry { owner, kind, port, value }
    }

    pub fn message(owner: u32, port: u32, value: u32) -> Entry {
        Entry::new(owner, kind::MESSAGE, port, value)
    }

    pub fn compensation(owner: u32, port: u32, value: u32) -> Entry {
        Entry::new(owner, kind::COMPENSATION, port, value)
    }

    pub fn abort_mark(owner: u32) -> Entry {
        Entry::new(owner, kind::ABORT_MARK, 0, 0)
    }

    pub fn member_mark(owner: u32, id: u32) -> Entry {
        Entry::new(owner, kind::MEMBER_MARK, 0, id)
    }

    pub fn item(self) -> u32 {
        self.kind << 24 | self.port << 16 | self.value
    }

    pub fn from_item(owner: u32, item: u32) -> Entry {
        Entry { owner, kind: item >> 24, port: item >> 16 & 0xFF, value: item & 0xFFFF }
    }
}

#[derive(Clone, Debug, PartialEq, Eq)]
pub struct State {
    /// The next id (01: next ticket, N).
    pub next: u32,
    pub entries: Vec<Entry>,
}

impl State {
    pub fn empty() -> State {
        State { next: 1, entries: Vec::new() }
    }

    pub fn words(&self) -> Vec<u32> {
        let mut words = vec![self.entries.len() as u32, self.next];
        words.extend(self.entries.iter().map(|entry| entry.owner));
        words.extend(self.entries.iter().map(|entry| entry.item()));
        words
    }

    /// The state of words that follow the layout; `None` for others.
    pub fn from_words(words: &[u32]) -> Option<State> {
        let [n, next] = *words.first_chunk::<2>()?;
        if words.len() as u64 != 2 + 2 * u64::from(n) {
            return None;
        }
        let (owners, items) = words[2..].split_at(n as usize);
        let entries = owners.iter().zip(items).map(|(&owner, &item)| Entry::from_item(owner, item));
        Some(State { next, entries: entries.collect() })
    }
}

#[derive(Clone, Copy, Debug, PartialEq, Eq)]
pub struct Move {
    /// One of `act`.
    pub kind: u32,
    /// The rule of a reaction, the id of a commit or an abort.
    pub number: u32,
    pub picks: [u32; 4],
}

impl Move {
    pub fn react(rule: u32, picks: &[u32]) -> Move {
        let mut all = [0; 4];
        all[..picks.len()].copy_from_slice(picks);
        Move { kind: act::REACT, number: rule, picks: all }
    }

    pub fn commit(id: u32) -> Move {
        Move { kind: act::COMMIT, number: id, picks: [0; 4] }
    }

    pub fn abort(id: u32) -> Move {
        Move { kind: act::ABORT, number: id, picks: [0; 4] }
    }

    pub fn head(self) -> u32 {
        self.kind << 24 | self.number
    }

    pub fn words(self) -> Vec<u32> {
        let mut words = vec![self.head()];
        words.extend(self.picks);
        words
    }

    pub fn from_head(head: u32, picks: [u32; 4]) -> Move {
        Move { kind: head >> 24, number: head & 0xFF_FFFF, picks }
    }

    pub fn from_words(words: &[u32]) -> Option<Move> {
        let [head, picks @ ..] = *<&[u32; 5]>::try_from(words).ok()?;
        Some(Move::from_head(head, picks))
    }
}

/// The words of a log.
pub fn log_words(log: &[Move]) -> Vec<u32> {
    let mut words = vec![log.len() as u32];
    words.extend(log.iter().map(|mv| mv.head()));
    words.extend(log.iter().flat_map(|mv| mv.picks));
    words
}

/// The log of words that follow the layout; `None` for others.
pub fn log_from_words(words: &[u32]) -> Option<Vec<Move>> {
    let k = *words.first()? as usize;
    if words.len() as u64 != 1 + 5 * k as u64 {
        return None;
    }
    let (heads, picks) = words[1..].split_at(k);
    let picks = picks.chunks_exact(4).map(|four| <[u32; 4]>::try_from(four).unwrap());
    Some(heads.iter().zip(picks).map(|(&head, picks)| Move::from_head(head, picks)).collect())
}
