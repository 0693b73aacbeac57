//! Solutions of named molecules and the reactions of the calculus: (RED), (MERGE), (COMMIT),
//! (ABORT). Inside transactions (RED) and (MERGE) have the premise of document 02 that none of them has
//! failed. Nothing here knows about the order of entries or a limit on their number.
use std::collections::{BTreeMap, BTreeSet};

use super::definitions::{Channel, Definition, Output, Product, Term};
use crate::words::MAX_NEXT;

/// The name of a molecule: where it stood at the start, or which move made it, and as which of
/// its products. Two molecules never share one, so equal messages stay apart.
#[derive(Clone, Copy, Debug, PartialEq, Eq, PartialOrd, Ord)]
pub enum Origin {
    Start(usize),
    Made { by: usize, product: usize },
}

/// A message `x⟨v⟩`.
#[derive(Clone, Copy, Debug, PartialEq, Eq, PartialOrd, Ord)]
pub struct Message {
    pub channel: Channel,
    pub value: u32,
}

type Named<T> = BTreeMap<Origin, T>;

/// `{{ messages, abort*, ⌊compensation⌋ }}`, with the ids of the transactions that merged into it.
#[derive(Clone, Debug, Default, PartialEq, Eq)]
pub struct Transaction {
    pub messages: Named<Message>,
    pub compensation: Named<Message>,
    pub aborts: BTreeSet<Origin>,
    /// 01: lots.
    pub members: Named<u32>,
}

impl Transaction {
    /// Whether an abort floats in it. Failure goes first (02, after the calculus of paper 000): then
    /// (ABORT) is the only reaction with it.
    pub fn has_failed(&self) -> bool {
        !self.aborts.is_empty()
    }
}

/// The global solution: free messages and running transactions.
#[derive(Clone, Debug, PartialEq, Eq)]
pub struct Solution {
    pub messages: Named<Message>,
    pub transactions: BTreeMap<u32, Transaction>,
    pub next: u32,
}

/// Where a message floats.
#[derive(Clone, Copy, Debug, PartialEq, Eq, PartialOrd, Ord)]
pub enum Scope {
    Global,
    Inside(u32),
}

/// What fired: the transactions it was made in, the one it left, its products in atom order.
#[derive(Clone, Debug)]
pub struct Fired {
    pub scopes: BTreeSet<u32>,
    pub left_in: Option<u32>,
    pub products: Vec<Origin>,
}

impl Solution {
    pub fn message(&self, name: Origin) -> Option<(Scope, Message)> {
        if let Some(&message) = self.messages.get(&name) {
            return Some((Scope::Global, message));
        }
        self.transactions
            .iter()
            .find_map(|(&id, transaction)| transaction.messages.get(&name).map(|&message| (Scope::Inside(id), message)))
    }

    /// Fires a definition on the named molecules, as move `by`.
    pub fn fire(&mut self, rule: &Definition, names: &[Origin], by: usize) -> Result<Fired, u32> {
        let found: Vec<(Scope, Message)> = names.iter().map_while(|&name| self.message(name)).collect();
        let distinct: BTreeSet<_> = names.iter().collect();
        let matches = found.iter().map(|(_, message)| message.channel).eq(rule.pattern.iter().copied());
        if !matches || distinct.len() != names.len() {
            return Err(7);
        }
        let scopes: BTreeSet<Scope> = found.iter().map(|&(scope, _)| scope).collect();
        let inside: BTreeSet<u32> = scopes
            .iter()
            .filter_map(|scope| match scope {
                Scope::Inside(id) => Some(*id),
                Scope::Global => None,
            })
            .collect();
        let fits = match rule.product {
            Product::Global(_) => inside.is_empty(),
            Product::Local { .. } => scopes.len() == 1 && inside.len() == 1,
            Product::Merge { .. } => scopes.len() == inside.len(),
        };
        if !fits {
            return Err(8);
        }
        // The premise of (RED) inside a transaction and of (MERGE); a global definition fires in none.
        if inside.iter().any(|id| self.transactions[id].has_failed()) {
            return Err(18);
        }
        if matches!(rule.product, Product::Global(Some(_))) && self.next == MAX_NEXT {
            return Err(11);
        }
        let received: Vec<u32> = found.iter().map(|(_, message)| message.value).collect();
        let mut made = Made { by, received, products: Vec::new() };
        self.take(names, &scopes);
        let left_in = match &rule.product {
            // (RED) in the global solution; a transaction term becomes a sub-solution (STR-TRANS).
            Product::Global(begin) => {
                self.messages.extend(made.messages(&rule.emits));
                begin.as_ref().map(|begin| {
                    let id = self.next;
                    self.next += 1;
                    let transaction = Transaction {
                        members: BTreeMap::from([(made.name(), id)]),
                        messages: made.messages(&begin.body),
                        compensation: made.messages(&begin.compensation),
                        aborts: begin.abort.then(|| made.name()).into_iter().collect(),
                    };
                    self.transactions.insert(id, transaction);
                    id
                })
            }
            // (RED) inside one transaction, and (MERGE): S_i and ⌊Q_i⌋ are put together.
            Product::Local { abort } | Product::Merge { abort } => {
                let id = *inside.first().expect("a transaction");
                let mut whole = Transaction::default();
                for one in &inside {
                    let part = self.transactions.remove(one).expect("an open transaction");
                    whole.messages.extend(part.messages);
                    whole.compensation.extend(part.compensation);
                    whole.aborts.extend(part.aborts);
                    whole.members.extend(part.members);
                }
                whole.messages.extend(made.messages(&rule.emits));
                whole.aborts.extend(abort.then(|| made.name()));
                self.transactions.insert(id, whole);
                Some(id)
            }
        };
        Ok(Fired { scopes: inside, left_in, products: made.products })
    }

    fn take(&mut self, names: &[Origin], scopes: &BTreeSet<Scope>) {
        for scope in scopes {
            let messages = match scope {
                Scope::Global => &mut self.messages,
                Scope::Inside(id) => &mut self.transactions.get_mut(id).expect("an open transaction").messages,
            };
            names.iter().for_each(|name| {
                messages.remove(name);
            });
        }
    }

    /// (COMMIT): `{{ M | def D in 0, ⌊Q⌋ }} → M`, where no name of D is left in M.
    pub fn commit(&mut self, id: u32) -> Result<Transaction, u32> {
        let transaction = self.transactions.get(&id).ok_or(9u32)?;
        let finished = transaction.messages.values().all(|message| message.channel.is_global());
        if !finished || transaction.has_failed() {
            return Err(10);
        }
        let ended = self.transactions.remove(&id).expect("an open transaction");
        self.messages.extend(&ended.messages);
        Ok(ended)
    }

    /// (ABORT): `{{ abort | P, ⌊Q⌋ }} → Q`.
    pub fn abort(&mut self, id: u32) -> Result<Transaction, u32> {
        let transaction = self.transactions.get(&id).ok_or(9u32)?;
        if !transaction.has_failed() {
            return Err(10);
        }
        let ended = self.transactions.remove(&id).expect("an open transaction");
        self.messages.extend(&ended.compensation);
        Ok(ended)
    }
}

/// Hands out names for the products of one move.
struct Made {
    by: usize,
    received: Vec<u32>,
    products: Vec<Origin>,
}

impl Made {
    fn name(&mut self) -> Origin {
        let name = Origin::Made { by: self.by, product: self.products.len() };
        self.products.push(name);
        name
    }

    fn messages(&mut self, outputs: &[Output]) -> Named<Message> {
        let mut named = BTreeMap::new();
        for output in outputs {
            let value = match output.term {
                Term::Constant(value) => value,
                Term::Received(index) => self.received[index],
            };
            named.insert(self.name(), Message { channel: output.channel, value });
        }
        named
    }
}
