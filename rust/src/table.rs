//! The words of a table.

/// The words of a table (01: recipe table), not checked.
#[derive(Clone, Copy, Debug, PartialEq, Eq)]
pub struct Table<'a>(&'a [u32]);

impl<'a> Table<'a> {
    /// Borrows words of any length and content.
    pub fn new(words: &'a [u32]) -> Table<'a> {
        Table(words)
    }

    /// The words.
    pub fn words(self) -> &'a [u32] {
        self.0
    }
}

/// The value of a message that a rule makes.
#[derive(Clone, Copy, Debug, PartialEq, Eq)]
pub enum Value {
    /// This one.
    Constant(u16),
    /// The value of the message taken by a consume of the same rule, counted from 0.
    Received(u16),
}

/// An atom of a rule. In a rule they stand in this order.
#[derive(Clone, Copy, Debug, PartialEq, Eq)]
pub enum Atom {
    /// Takes a message (01: take).
    Consume {
        /// Its port.
        port: u8,
    },
    /// Makes a message (01: give).
    Emit {
        /// Its port.
        port: u8,
        /// Its value.
        value: Value,
    },
    /// Begins a transaction (01: open).
    Begin,
    /// A message inside the new transaction (01: inside).
    Body {
        /// Its port.
        port: u8,
        /// Its value.
        value: Value,
    },
    /// What an abort of the new transaction gives back (01: call-off).
    Compensate {
        /// Its port.
        port: u8,
        /// Its value.
        value: Value,
    },
    /// Marks the transaction to be aborted (01: stop).
    Abort,
}

impl Atom {
    /// The atom in a word.
    pub fn word(self) -> u32 {
        let with = |role: u32, port: u8, value: Value| {
            let (mode, value) = match value {
                Value::Constant(value) => (0, value),
                Value::Received(consume) => (1, consume),
            };
            role << 28 | mode << 24 | u32::from(port) << 16 | u32::from(value)
        };
        match self {
            Atom::Consume { port } => with(0, port, Value::Constant(0)),
            Atom::Emit { port, value } => with(1, port, value),
            Atom::Begin => 2 << 28,
            Atom::Body { port, value } => with(3, port, value),
            Atom::Compensate { port, value } => with(4, port, value),
            Atom::Abort => 5 << 28,
        }
    }
}

/// Writes the words of a table, rule by rule. Nothing is checked before [`check_table`](crate::check_table).
#[derive(Clone, Debug, Default)]
pub struct TableBuilder {
    ports: [u32; 3],
    rules: u32,
    numbers: Vec<u32>,
    atoms: Vec<u32>,
}

impl TableBuilder {
    /// A table without rules. Ports are numbered from 0: global ones first (01: plant ports), then
    /// local ones (01: batch ports), then merge ones (01: joining ports).
    pub fn new(global: u32, local: u32, merge: u32) -> TableBuilder {
        TableBuilder { ports: [global, local, merge], ..TableBuilder::default() }
    }

    /// Adds a rule; rules are numbered from 0.
    pub fn rule(mut self, atoms: impl IntoIterator<Item = Atom>) -> TableBuilder {
        self.atoms.extend(atoms.into_iter().map(Atom::word));
        self.numbers.resize(self.atoms.len(), self.rules);
        self.rules += 1;
        self
    }

    /// The words.
    pub fn words(&self) -> Vec<u32> {
        let sizes = [self.rules, self.atoms.len() as u32];
        [&self.ports[..], &sizes, &self.numbers, &self.atoms].concat()
    }
}
