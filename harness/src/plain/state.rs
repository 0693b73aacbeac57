//! The state check, loading and storing.
use std::ops::Deref;

use super::table::Table;
use crate::answer::Answer;
use crate::words::{kind, MAX_ENTRIES, MAX_NEXT};

/// A state in columns: those of its words, or its own, in which moves are made.
#[derive(Clone, Debug)]
pub struct State<C = Vec<u32>> {
    pub next: u32,
    pub owners: C,
    pub items: C,
    /// How many of the items are abort marks: where there is none, no reaction has to look for one.
    pub aborts: usize,
    /// The member marks that moves have removed.
    pub ended: u32,
}

/// A set of 16-bit numbers.
pub struct Marks(Box<[u64; 1024]>);

impl Marks {
    pub fn new() -> Marks {
        Marks(Box::new([0; 1024]))
    }

    pub fn has(&self, value: u32) -> bool {
        self.0[value as usize / 64] >> (value % 64) & 1 != 0
    }

    pub fn add(&mut self, value: u32) {
        self.0[value as usize / 64] |= 1 << (value % 64);
    }

    pub fn without(mut self, others: &Marks) -> Marks {
        for (word, other) in self.0.iter_mut().zip(others.0.iter()) {
            *word &= !other;
        }
        self
    }

    pub fn size(&self) -> u64 {
        self.0.iter().map(|word| u64::from(word.count_ones())).sum()
    }

    /// The numbers in rising order; all are below `end`.
    pub fn numbers(&self, end: u32) -> impl Iterator<Item = u32> + '_ {
        let words = self.0[..end.div_ceil(64) as usize].iter();
        words.enumerate().flat_map(|(at, &word)| {
            let rest = |left: &u64| Some(left & (left - 1)).filter(|&left| left != 0);
            std::iter::successors(Some(word).filter(|&word| word != 0), rest)
                .map(move |left| 64 * at as u32 + left.trailing_zeros())
        })
    }
}

/// The next id and the columns of words that have the sizes of a state.
fn sized(words: &[u32]) -> Result<(u32, &[u32], &[u32]), u32> {
    let &[n, next, ref rest @ ..] = words else { return Err(3) };
    let n = n as usize;
    if n > MAX_ENTRIES || next == 0 || next > MAX_NEXT || rest.len() != 2 * n {
        return Err(3);
    }
    let (owners, items) = rest.split_at(n);
    Ok((next, owners, items))
}

impl<C: Deref<Target = [u32]>> State<C> {
    /// Whether the entries fit the table; the abort marks are counted on the way.
    fn checked(&mut self, table: &Table) -> bool {
        let mut members = Marks::new();
        let mut named = Marks::new();
        for (&owner, &item) in self.owners.iter().zip(&self.items[..]) {
            let (port, value) = (item >> 16 & 0xFF, item & 0xFFFF);
            let fits = match item >> 24 {
                kind::MESSAGE => port < if owner == 0 { table.global } else { table.ports },
                kind::COMPENSATION => owner != 0 && port < table.global,
                kind::ABORT_MARK => {
                    self.aborts += 1;
                    owner != 0 && item << 8 == 0
                }
                kind::MEMBER_MARK => {
                    let fits = port == 0 && owner != 0 && owner <= value && value < self.next && !members.has(value);
                    members.add(value);
                    if owner == value {
                        named.add(value);
                    }
                    fits
                }
                _ => false,
            };
            if !fits {
                return false;
            }
        }
        self.owners.iter().all(|&owner| owner == 0 || (owner < MAX_NEXT && named.has(owner)))
    }
}

impl<'a> State<&'a [u32]> {
    /// The words of a state under this table; nothing is copied.
    pub fn of_words(table: &Table, words: &'a [u32]) -> Result<State<&'a [u32]>, u32> {
        let (next, owners, items) = sized(words)?;
        let mut state = State { next, owners, items, aborts: 0, ended: 0 };
        if state.checked(table) {
            Ok(state)
        } else {
            Err(4)
        }
    }
}

impl State {
    pub fn read(table: &Table, words: &[u32]) -> Result<State, u32> {
        let (next, owners, items) = sized(words)?;
        // Room for one reaction's products, so that a move does not reallocate.
        let room = || Vec::with_capacity(owners.len() + 16);
        let mut state = State { next, owners: room(), items: room(), aborts: 0, ended: 0 };
        state.owners.extend_from_slice(owners);
        state.items.extend_from_slice(items);
        if state.checked(table) {
            Ok(state)
        } else {
            Err(4)
        }
    }

    pub fn write(&self, target: &mut [u32]) -> Answer {
        let n = self.items.len();
        target[0] = n as u32;
        target[1] = self.next;
        target[2..2 + n].copy_from_slice(&self.owners);
        target[2 + n..2 + 2 * n].copy_from_slice(&self.items);
        Answer::Moved { words: 2 + 2 * n as u32, members: self.ended }
    }
}
