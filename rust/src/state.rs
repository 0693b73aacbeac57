//! The words of a state.

/// The words of a state, not checked.
#[derive(Clone, Copy, Debug, PartialEq, Eq)]
pub struct State<'a>(&'a [u32]);

impl<'a> State<'a> {
    /// Borrows words of any length and content.
    pub fn new(words: &'a [u32]) -> State<'a> {
        State(words)
    }

    /// The words.
    pub fn words(self) -> &'a [u32] {
        self.0
    }

    /// The id that the next transaction gets (01: N, the next ticket), if the words go so far.
    pub fn next(self) -> Option<u32> {
        self.0.get(1).copied()
    }

    /// The entries in order, if the words have the layout of a state.
    pub fn entries(self) -> Option<impl ExactSizeIterator<Item = Entry> + 'a> {
        let n = *self.0.first()? as usize;
        let columns = self.0.get(2..).filter(|columns| Some(columns.len()) == n.checked_mul(2))?;
        let (owners, items) = columns.split_at(n);
        Some(owners.iter().zip(items).map(|(&owner, &item)| Entry { owner, item: Item::from_word(item) }))
    }
}

/// An entry of a state.
#[derive(Clone, Copy, Debug, PartialEq, Eq)]
pub struct Entry {
    /// 0 for the global solution (01: the plant), otherwise a transaction's id (01: a batch's ticket).
    pub owner: u32,
    /// What is owned.
    pub item: Item,
}

/// What an entry is.
#[derive(Clone, Copy, Debug, PartialEq, Eq)]
pub enum Item {
    /// 01: a note.
    Message {
        /// Its port.
        port: u8,
        /// Its value.
        value: u16,
    },
    /// What an abort gives back (01: a call-off note).
    Compensation {
        /// Its port.
        port: u8,
        /// Its value.
        value: u16,
    },
    /// The transaction may only be aborted (01: a stop mark).
    AbortMark,
    /// A transaction that began under this id is a member of its owner (01: a lot mark).
    MemberMark {
        /// The id.
        id: u16,
    },
    /// A word of another form; no checked state has one.
    Other(u32),
}

impl Item {
    /// The item in a word.
    pub fn word(self) -> u32 {
        let with = |kind: u32, port: u8, value: u16| kind << 24 | u32::from(port) << 16 | u32::from(value);
        match self {
            Item::Message { port, value } => with(0, port, value),
            Item::Compensation { port, value } => with(1, port, value),
            Item::AbortMark => with(2, 0, 0),
            Item::MemberMark { id } => with(3, 0, id),
            Item::Other(word) => word,
        }
    }

    /// The item that a word holds.
    pub fn from_word(word: u32) -> Item {
        let (kind, port, value) = (word >> 24, (word >> 16) as u8, word as u16);
        match (kind, port, value) {
            (0, port, value) => Item::Message { port, value },
            (1, port, value) => Item::Compensation { port, value },
            (2, 0, 0) => Item::AbortMark,
            (3, 0, id) => Item::MemberMark { id },
            _ => Item::Other(word),
        }
    }
}

/// Writes the words of a state, entry by entry. Nothing is checked before [`check_state`](crate::check_state).
#[derive(Clone, Debug)]
pub struct StateBuilder {
    next: u32,
    owners: Vec<u32>,
    items: Vec<u32>,
}

impl StateBuilder {
    /// A state without entries, whose next transaction gets the id `next`; a plant starts with 1.
    pub fn new(next: u32) -> StateBuilder {
        StateBuilder { next, owners: Vec::new(), items: Vec::new() }
    }

    /// Adds an entry.
    pub fn entry(mut self, owner: u32, item: Item) -> StateBuilder {
        self.owners.push(owner);
        self.items.push(item.word());
        self
    }

    /// Adds a message.
    pub fn message(self, owner: u32, port: u8, value: u16) -> StateBuilder {
        self.entry(owner, Item::Message { port, value })
    }

    /// The words.
    pub fn words(&self) -> Vec<u32> {
        [&[self.items.len() as u32, self.next][..], &self.owners, &self.items].concat()
    }
}
