//! Definitions: the rules of a table as terms of the calculus. Reading them finds faults 1 and 2.
use crate::words::{mode, role, Atom, MAX_ATOMS, MAX_CONSUMES, MAX_PORTS, MAX_RULES, MAX_RULE_ATOMS};

/// A channel name with its sort.
#[derive(Clone, Copy, Debug, PartialEq, Eq, PartialOrd, Ord)]
pub enum Channel {
    /// 01: plant port.
    Global(u32),
    /// 01: batch port.
    Local(u32),
    /// 01: joining port.
    Merge(u32),
}

impl Channel {
    pub fn port(self) -> u32 {
        match self {
            Channel::Global(port) | Channel::Local(port) | Channel::Merge(port) => port,
        }
    }

    pub fn is_global(self) -> bool {
        matches!(self, Channel::Global(_))
    }
}

/// What is sent: a constant, or what the pattern's message of that number brought.
#[derive(Clone, Copy, Debug, PartialEq, Eq)]
pub enum Term {
    Constant(u32),
    Received(usize),
}

/// A message to be sent, `x⟨t⟩`.
#[derive(Clone, Copy, Debug, PartialEq, Eq)]
pub struct Output {
    pub channel: Channel,
    pub term: Term,
}

/// A transaction to be started, `[body | abort? : compensation]`.
#[derive(Clone, Debug, PartialEq, Eq)]
pub struct Begin {
    pub body: Vec<Output>,
    pub compensation: Vec<Output>,
    pub abort: bool,
}

/// What fires where.
#[derive(Clone, Debug, PartialEq, Eq)]
pub enum Product {
    /// `J ▷ P` of the global solution, with at most one transaction.
    Global(Option<Begin>),
    /// `J ▷ P | abort?` inside a transaction.
    Local { abort: bool },
    /// `J ▶ P | abort?` across transactions.
    Merge { abort: bool },
}

#[derive(Clone, Debug, PartialEq, Eq)]
pub struct Definition {
    /// The pattern J.
    pub pattern: Vec<Channel>,
    pub emits: Vec<Output>,
    pub product: Product,
}

#[derive(Clone, Debug)]
pub struct Definitions {
    names: Names,
    pub rules: Vec<Definition>,
}

/// The names that are defined, by sort.
#[derive(Clone, Copy, Debug)]
struct Names {
    global: u32,
    local: u32,
    merge: u32,
}

impl Names {
    fn channel(self, port: u32) -> Option<Channel> {
        if port < self.global {
            Some(Channel::Global(port))
        } else if port < self.global + self.local {
            Some(Channel::Local(port))
        } else if port < self.global + self.local + self.merge {
            Some(Channel::Merge(port))
        } else {
            None
        }
    }
}

impl Definitions {
    pub fn channel(&self, port: u32) -> Option<Channel> {
        self.names.channel(port)
    }

    /// Reads a table, or finds the number of its first fault.
    pub fn read(words: &[u32]) -> Result<Definitions, u32> {
        let (names, rules, numbers, atoms) = shape(words).ok_or(1u32)?;
        let groups = grouped(numbers, atoms);
        let expected: Vec<u32> = (0..rules).collect();
        if groups.iter().map(|group| group.0).ne(expected) {
            return Err(2);
        }
        let rules = groups.iter().map(|(_, atoms)| definition(names, atoms)).collect::<Option<Vec<_>>>();
        Ok(Definitions { names, rules: rules.ok_or(2u32)? })
    }
}

/// The sizes, if they and the length are right.
fn shape(words: &[u32]) -> Option<(Names, u32, &[u32], &[u32])> {
    let (sizes, rest) = words.split_first_chunk::<5>()?;
    let [global, local, merge, rules, atoms] = *sizes;
    let ports = [global, local, merge].iter().try_fold(0u32, |sum, &size| sum.checked_add(size))?;
    let fits = ports <= MAX_PORTS && rules <= MAX_RULES && atoms <= MAX_ATOMS;
    if !fits || rest.len() != 2 * atoms as usize {
        return None;
    }
    let (numbers, atoms) = rest.split_at(atoms as usize);
    Some((Names { global, local, merge }, rules, numbers, atoms))
}

/// Neighbouring atoms of equal rule number.
fn grouped(numbers: &[u32], atoms: &[u32]) -> Vec<(u32, Vec<Atom>)> {
    let mut groups: Vec<(u32, Vec<Atom>)> = Vec::new();
    for (&number, &atom) in numbers.iter().zip(atoms) {
        match groups.last_mut() {
            Some((last, group)) if *last == number => group.push(Atom::from_word(atom)),
            _ => groups.push((number, vec![Atom::from_word(atom)])),
        }
    }
    groups
}

/// Reads `consume+ emit* begin? body* compensate* abort?` from the front.
struct Reader<'a> {
    names: Names,
    left: &'a [Atom],
}

impl<'a> Reader<'a> {
    fn many(&mut self, role: u32) -> &'a [Atom] {
        let count = self.left.iter().take_while(|atom| atom.role == role).count();
        let (these, left) = self.left.split_at(count);
        self.left = left;
        these
    }

    /// An atom that only marks; all its other fields must be 0.
    fn mark(&mut self, role: u32) -> Option<bool> {
        match self.left.split_first() {
            Some((&atom, left)) if atom.role == role => {
                self.left = left;
                (atom == Atom::new(role, 0, 0, 0)).then_some(true)
            }
            _ => Some(false),
        }
    }

    fn outputs(&mut self, role: u32, arity: usize) -> Option<Vec<Output>> {
        let names = self.names;
        self.many(role).iter().map(|atom| output(names, *atom, arity)).collect()
    }
}

fn output(names: Names, atom: Atom, arity: usize) -> Option<Output> {
    let term = match atom.mode {
        mode::CONSTANT => Term::Constant(atom.value),
        mode::RECEIVED if (atom.value as usize) < arity => Term::Received(atom.value as usize),
        _ => return None,
    };
    Some(Output { channel: names.channel(atom.port)?, term })
}

fn consumed(names: Names, atom: Atom) -> Option<Channel> {
    let plain = Atom::new(role::CONSUME, mode::CONSTANT, atom.port, 0);
    if atom == plain {
        names.channel(atom.port)
    } else {
        None
    }
}

fn all_global(outputs: &[Output]) -> bool {
    outputs.iter().all(|output| output.channel.is_global())
}

/// The definition that the atoms spell, if they spell one.
fn definition(names: Names, atoms: &[Atom]) -> Option<Definition> {
    let mut reader = Reader { names, left: atoms };
    let pattern = reader.many(role::CONSUME).iter().map(|atom| consumed(names, *atom)).collect::<Option<Vec<_>>>()?;
    let emits = reader.outputs(role::EMIT, pattern.len())?;
    let begins = reader.mark(role::BEGIN)?;
    let body = reader.outputs(role::BODY, pattern.len())?;
    let compensation = reader.outputs(role::COMPENSATE, pattern.len())?;
    let abort = reader.mark(role::ABORT)?;
    let read_whole = reader.left.is_empty() && atoms.len() <= MAX_RULE_ATOMS && pattern.len() <= MAX_CONSUMES;
    if !read_whole || !all_global(&compensation) {
        return None;
    }
    let no_contents = body.is_empty() && compensation.is_empty();
    let same_sort = |channel: &Channel| std::mem::discriminant(channel) == std::mem::discriminant(&pattern[0]);
    if !pattern.iter().all(same_sort) {
        return None;
    }
    let product = match (pattern.first()?, begins) {
        (Channel::Global(_), _) if !all_global(&emits) => return None,
        (Channel::Global(_), true) => Product::Global(Some(Begin { body, compensation, abort })),
        (Channel::Global(_), false) if no_contents && !abort => Product::Global(None),
        (Channel::Local(_), false) if no_contents => Product::Local { abort },
        (Channel::Merge(_), false) if no_contents => Product::Merge { abort },
        _ => return None,
    };
    Some(Definition { pattern, emits, product })
}
