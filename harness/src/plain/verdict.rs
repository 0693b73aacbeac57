//! Whether a move is allowed, and what it would leave. Nothing is changed here.
use std::ops::Deref;

use super::state::State;
use super::step::Call;
use super::table::{Class, Rule, Table};
use crate::answer::Preview;
use crate::words::{kind, MAX_ENTRIES, MAX_NEXT};

/// A reaction that is allowed.
pub struct Reaction {
    /// The values of the picked messages.
    pub received: [u32; 4],
    /// Their owners, and the first one's in place of those that there are not.
    pub owners: [u32; 4],
    /// The smallest owner.
    pub owner: u32,
    /// All owners are the same.
    pub one: bool,
    /// The entries afterwards.
    pub entries: usize,
}

/// What goes with an end that is allowed.
pub struct Going {
    pub entries: usize,
    /// The member marks among them.
    pub members: u32,
}

impl<C: Deref<Target = [u32]>> State<C> {
    /// What a move would leave, found without making it.
    pub fn preview(&self, table: &Table, call: Call, picks: &[u32; 4]) -> Result<Preview, u32> {
        let ended = |id: u32, going: Going| (self.items.len() - going.entries, self.next, id, going.members);
        let (entries, next, id, members) = match call {
            Call::React(rule) => {
                let atoms = &table.atoms[rule.first..rule.end];
                let Reaction { owner, entries, .. } =
                    self.may_react(rule, atoms, &picks[..rule.consumes], MAX_ENTRIES)?;
                if rule.begins {
                    (entries, self.next + 1, self.next, 0)
                } else {
                    (entries, self.next, owner, 0)
                }
            }
            Call::Commit(id) => ended(id, self.may_commit(table, id)?),
            Call::Abort(id) => ended(id, self.may_abort(id)?),
        };
        Ok(Preview::accepted(entries, next, id, members))
    }

    /// Whether a rule of these atoms may react on these picks, with at most `ceiling` entries afterwards.
    /// Inlined, so that a run has no call more for each move.
    #[inline(always)]
    pub fn may_react(&self, rule: Rule, atoms: &[u32], picks: &[u32], ceiling: usize) -> Result<Reaction, u32> {
        let n = self.items.len();
        let mut received = [0; 4];
        let mut owners = [0; 4];
        for (k, (&pick, atom)) in picks.iter().zip(atoms).enumerate() {
            let at = pick as usize;
            // A message's item above its value is its port, and so is a consume atom's.
            if at >= n || picks[..k].contains(&pick) || self.items[at] >> 16 != atom >> 16 {
                return Err(7);
            }
            received[k] = self.items[at] & 0xFFFF;
            owners[k] = self.owners[at];
        }
        // Four owners always, so that a merge compares with all at once.
        let first = owners[0];
        owners[picks.len()..].fill(first);
        let owner = *owners.iter().min().unwrap();
        let one = owners.iter().all(|&other| other == owner);
        let fits = match rule.class {
            Class::Global => one && owner == 0,
            Class::Local => one,
            Class::Merge => true,
        };
        if !fits {
            return Err(8);
        }
        if rule.class != Class::Global && self.aborts > 0 && self.aborting(&owners) {
            return Err(18);
        }
        if rule.begins && self.next == MAX_NEXT {
            return Err(11);
        }
        let entries = n - rule.consumes + atoms[rule.consumes..].len();
        if entries > ceiling {
            return Err(12);
        }
        Ok(Reaction { received, owners, owner, one, entries })
    }

    /// What goes with a commit, if it is allowed.
    pub fn may_commit(&self, table: &Table, id: u32) -> Result<Going, u32> {
        // The item of a message on a global port.
        let freed = |item: u32| item >> 16 < table.global;
        let unfinished = |item: u32| match item >> 24 {
            kind::MESSAGE => !freed(item),
            other => other == kind::ABORT_MARK,
        };
        let [entries, freed, unfinished, members] = self.count(id, freed, unfinished);
        match (entries, unfinished) {
            (0, _) => Err(9),
            (_, 0) => Ok(Going { entries: (entries - freed) as usize, members }),
            _ => Err(10),
        }
    }

    /// What goes with an abort, if it is allowed.
    pub fn may_abort(&self, id: u32) -> Result<Going, u32> {
        let of = |kind: u32| move |item: u32| item >> 24 == kind;
        let [entries, freed, marks, members] = self.count(id, of(kind::COMPENSATION), of(kind::ABORT_MARK));
        match (entries, marks) {
            (0, _) => Err(9),
            (_, 0) => Err(10),
            _ => Ok(Going { entries: (entries - freed) as usize, members }),
        }
    }

    /// How many entries a transaction has, how many of them are of one sort and of another, and how many are member
    /// marks: one pass without a branch, so that several are compared at once.
    fn count(&self, id: u32, one: impl Fn(u32) -> bool, other: impl Fn(u32) -> bool) -> [u32; 4] {
        let mut counts = [0; 4];
        for (&owner, &item) in self.owners.iter().zip(&self.items[..]) {
            let inside = owner == id;
            counts[0] += u32::from(inside);
            counts[1] += u32::from(inside & one(item));
            counts[2] += u32::from(inside & other(item));
            counts[3] += u32::from(inside & (item >> 24 == kind::MEMBER_MARK));
        }
        counts
    }

    /// Whether one of these transactions has an abort mark.
    fn aborting(&self, ids: &[u32; 4]) -> bool {
        const MARK: u32 = kind::ABORT_MARK << 24;
        // A chunk is compared at once, and only one that has a mark with its owners.
        let has_mark = |items: &[u32]| items.iter().fold(false, |found, &item| found | (item == MARK));
        let marks_one = |items: &[u32], owners: &[u32]| {
            items.iter().zip(owners).fold(false, |found, (&item, owner)| {
                found | ((item == MARK) & ids.iter().fold(false, |found, id| found | (id == owner)))
            })
        };
        let (items, last) = self.items.as_chunks::<32>();
        let (owners, last_owners) = self.owners.as_chunks::<32>();
        items.iter().zip(owners).any(|(items, owners)| has_mark(items) && marks_one(items, owners))
            || (has_mark(last) && marks_one(last, last_owners))
    }
}
