//! A single move: one pass over the entries.
use std::ops::Range;

use super::state::State;
use super::table::{Rule, Table};
use super::verdict::Reaction;
use crate::words::{act, kind, role, MAX_ENTRIES, MAX_NEXT};

/// A move whose words are in range.
#[derive(Clone, Copy, Debug)]
pub enum Call {
    React(Rule),
    Commit(u32),
    Abort(u32),
}

impl Call {
    /// A move in words, and its picks.
    pub fn of_words<'a>(table: &Table, words: &'a [u32]) -> Result<(Call, &'a [u32; 4]), u32> {
        let &[head, ref picks @ ..] = <&[u32; 5]>::try_from(words).map_err(|_| 5u32)?;
        Ok((Call::read(table, head, picks)?, picks))
    }

    pub fn read(table: &Table, head: u32, picks: &[u32; 4]) -> Result<Call, u32> {
        let number = head & 0xFF_FFFF;
        let id = (1..MAX_NEXT).contains(&number);
        let (call, used) = match head >> 24 {
            act::REACT => {
                let rule = *table.rules.get(number as usize).ok_or(5u32)?;
                (Call::React(rule), rule.consumes)
            }
            act::COMMIT if id => (Call::Commit(number), 0),
            act::ABORT if id => (Call::Abort(number), 0),
            _ => return Err(5),
        };
        if picks[used..] == [0; 4][used..] {
            Ok(call)
        } else {
            Err(5)
        }
    }
}

/// A list that runs beside the entries and follows their removals; `()` for none.
pub trait Beside {
    /// The entries of a range now start at `to`, which is not above it.
    fn shift(&mut self, kept: Range<usize>, to: usize);
    fn cut(&mut self, len: usize);
    fn grow(&mut self, product: usize);
}

impl Beside for () {
    fn shift(&mut self, _: Range<usize>, _: usize) {}
    fn cut(&mut self, _: usize) {}
    fn grow(&mut self, _: usize) {}
}

impl State {
    pub fn make(&mut self, table: &Table, call: Call, picks: &[u32; 4]) -> Result<u32, u32> {
        self.make_beside(table, call, picks, MAX_ENTRIES, &mut ())
    }

    /// Makes a move with at most `ceiling` entries afterwards; gives the transaction concerned,
    /// 0 for none. A refusal changes nothing.
    pub fn make_beside(
        &mut self,
        table: &Table,
        call: Call,
        picks: &[u32; 4],
        ceiling: usize,
        beside: &mut impl Beside,
    ) -> Result<u32, u32> {
        let made = match call {
            Call::React(rule) => self.react(table, rule, &picks[..rule.consumes], ceiling, beside),
            Call::Commit(id) => self.may_commit(table, id).map(|_| self.end(id, kind::MESSAGE, beside)),
            Call::Abort(id) => self.may_abort(id).map(|_| self.end(id, kind::COMPENSATION, beside)),
        };
        debug_assert_eq!(self.aborts, self.items.iter().filter(|&item| item >> 24 == kind::ABORT_MARK).count());
        made
    }

    fn react(
        &mut self,
        table: &Table,
        rule: Rule,
        picks: &[u32],
        ceiling: usize,
        beside: &mut impl Beside,
    ) -> Result<u32, u32> {
        let atoms = &table.atoms[rule.first..rule.end];
        let Reaction { received, owners, owner, one, .. } = self.may_react(rule, atoms, picks, ceiling)?;
        let products = &atoms[rule.consumes..];
        self.remove(picks, beside);
        if !one {
            self.merge(&owners, owner);
        }
        let mut inside = owner;
        for (product, &atom) in products.iter().enumerate() {
            let value = if atom >> 24 & 1 == 0 { atom & 0xFFFF } else { received[(atom & 3) as usize] };
            let message = (atom & 0xFF_0000) | value;
            let item = match atom >> 28 {
                role::BEGIN => {
                    inside = self.next;
                    self.next += 1;
                    kind::MEMBER_MARK << 24 | inside
                }
                role::COMPENSATE => kind::COMPENSATION << 24 | message,
                role::ABORT => {
                    self.aborts += 1;
                    kind::ABORT_MARK << 24
                }
                _ => message,
            };
            self.owners.push(inside);
            self.items.push(item);
            beside.grow(product);
        }
        Ok(inside)
    }

    /// All that these transactions own becomes that of one of them.
    fn merge(&mut self, ids: &[u32; 4], id: u32) {
        for other in &mut self.owners {
            let merges = ids.iter().fold(false, |found, picked| found | (picked == other));
            *other = if merges { id } else { *other };
        }
    }

    /// Takes the picked entries out of the columns.
    fn remove(&mut self, picks: &[u32], beside: &mut impl Beside) {
        let mut sorted = [self.items.len(); 5];
        for (slot, &pick) in sorted.iter_mut().zip(picks) {
            *slot = pick as usize;
        }
        sorted.sort_unstable();
        let mut to = sorted[0];
        for pair in sorted[..=picks.len()].windows(2) {
            to = self.shift(pair[0] + 1..pair[1], to, beside);
        }
        self.cut(to, beside);
    }

    /// Moves a run of kept entries down to `to`; gives the place after it.
    fn shift(&mut self, kept: Range<usize>, to: usize, beside: &mut impl Beside) -> usize {
        self.owners.copy_within(kept.clone(), to);
        self.items.copy_within(kept.clone(), to);
        beside.shift(kept.clone(), to);
        to + kept.len()
    }

    fn cut(&mut self, len: usize, beside: &mut impl Beside) {
        self.owners.truncate(len);
        self.items.truncate(len);
        beside.cut(len);
    }

    /// The transaction's entries of this kind become global messages in their places; gives its id.
    fn end(&mut self, id: u32, freed: u32, beside: &mut impl Beside) -> u32 {
        let n = self.items.len();
        let (mut kept, mut to) = (0, 0);
        for at in 0..n {
            if self.owners[at] != id {
                continue;
            }
            if self.items[at] >> 24 == freed {
                self.owners[at] = 0;
                self.items[at] &= 0xFF_FFFF;
            } else {
                self.aborts -= usize::from(self.items[at] >> 24 == kind::ABORT_MARK);
                self.ended += u32::from(self.items[at] >> 24 == kind::MEMBER_MARK);
                to = self.shift(kept..at, to, beside);
                kept = at + 1;
            }
        }
        to = self.shift(kept..n, to, beside);
        self.cut(to, beside);
        id
    }
}
