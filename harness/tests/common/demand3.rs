//! Demand 3 on the words of a log and of its serial log, clause by clause. It shares only the
//! decoding of words with the implementations, and trusts that the log's moves are allowed.
use std::collections::{BTreeMap, BTreeSet};

use harness::answer::Tally;
use harness::words::{act, kind, mode, role, Entry, Move, State, Table};

/// (0, place at the start), or (place of the move in the first log + 1, place among products).
type Origin = (usize, usize);

/// What tells a move apart wherever it stands.
#[derive(Clone, Debug, PartialEq, Eq, PartialOrd, Ord)]
enum Identity {
    /// A message is consumed once, so the origins of the picks are enough.
    Reaction { rule: u32, origins: Vec<Origin> },
    /// A member ends once; members are known by the place of their begin.
    End { kind: u32, members: BTreeSet<usize> },
}

#[derive(Clone)]
struct Tracked {
    entry: Entry,
    origin: Origin,
}

struct Tracker<'a> {
    table: &'a Table,
    next: u32,
    entries: Vec<Tracked>,
}

impl<'a> Tracker<'a> {
    fn new(table: &'a Table, start: &State) -> Tracker<'a> {
        let tracked = |(place, &entry): (usize, &Entry)| Tracked { entry, origin: (0, place) };
        Tracker { table, next: start.next, entries: start.entries.iter().enumerate().map(tracked).collect() }
    }

    fn picked(&self, mv: &Move) -> Vec<Tracked> {
        let rule = &self.table.rules[mv.number as usize];
        let consumes = rule.iter().filter(|atom| atom.role == role::CONSUME).count();
        mv.picks[..consumes].iter().map(|&pick| self.entries[pick as usize].clone()).collect()
    }

    fn begins(&self, mv: &Move) -> bool {
        mv.kind == act::REACT && self.table.rules[mv.number as usize].iter().any(|atom| atom.role == role::BEGIN)
    }

    /// The begins of the members whose marks the transaction holds.
    fn members(&self, id: u32) -> BTreeSet<usize> {
        let marks =
            self.entries.iter().filter(|tracked| tracked.entry.owner == id && tracked.entry.kind == kind::MEMBER_MARK);
        marks.map(|tracked| tracked.origin.0 - 1).collect()
    }

    fn identity(&self, mv: &Move) -> Identity {
        if mv.kind == act::REACT {
            Identity::Reaction {
                rule: mv.number,
                origins: self.picked(mv).iter().map(|tracked| tracked.origin).collect(),
            }
        } else {
            Identity::End { kind: mv.kind, members: self.members(mv.number) }
        }
    }

    /// The members that the move begins, is made in, or ends.
    fn concerned(&self, mv: &Move, place: usize) -> BTreeSet<usize> {
        if mv.kind != act::REACT {
            self.members(mv.number)
        } else if self.begins(mv) {
            BTreeSet::from([place])
        } else {
            let owners: BTreeSet<u32> =
                self.picked(mv).iter().map(|tracked| tracked.entry.owner).filter(|&owner| owner != 0).collect();
            owners.into_iter().flat_map(|owner| self.members(owner)).collect()
        }
    }

    fn make(&mut self, mv: &Move, place: usize) {
        match mv.kind {
            act::REACT => self.react(mv, place),
            ending => {
                let freed = if ending == act::COMMIT { kind::MESSAGE } else { kind::COMPENSATION };
                self.entries.retain(|tracked| tracked.entry.owner != mv.number || tracked.entry.kind == freed);
                for tracked in self.entries.iter_mut().filter(|tracked| tracked.entry.owner == mv.number) {
                    tracked.entry.owner = 0;
                    tracked.entry.kind = kind::MESSAGE;
                }
            }
        }
    }

    fn react(&mut self, mv: &Move, place: usize) {
        let picked = self.picked(mv);
        let owners: BTreeSet<u32> = picked.iter().map(|tracked| tracked.entry.owner).collect();
        let mut owner = *owners.first().unwrap();
        self.entries.retain(|tracked| picked.iter().all(|gone| gone.origin != tracked.origin));
        for tracked in &mut self.entries {
            if owners.contains(&tracked.entry.owner) {
                tracked.entry.owner = owner;
            }
        }
        let products = self.table.rules[mv.number as usize].iter().filter(|atom| atom.role != role::CONSUME);
        for (number, atom) in products.enumerate() {
            let value = if atom.mode == mode::RECEIVED { picked[atom.value as usize].entry.value } else { atom.value };
            let entry = match atom.role {
                role::BEGIN => {
                    owner = self.next;
                    self.next += 1;
                    Entry::member_mark(owner, owner)
                }
                role::COMPENSATE => Entry::compensation(owner, atom.port, value),
                role::ABORT => Entry::abort_mark(owner),
                _ => Entry::message(owner, atom.port, value),
            };
            self.entries.push(Tracked { entry, origin: (place + 1, number) });
        }
    }

    /// What is there, each as often as it is there.
    fn sorted(&self) -> Vec<Entry> {
        let mut entries: Vec<Entry> = self.entries.iter().map(|tracked| tracked.entry).collect();
        entries.sort_unstable();
        entries
    }
}

/// What the first log says about its serial log.
pub struct Demand3<'a> {
    table: &'a Table,
    start: &'a State,
    log: &'a [Move],
    places: BTreeMap<Identity, usize>,
    concerned: Vec<BTreeSet<usize>>,
    growth: Vec<i64>,
    end: Vec<Entry>,
}

impl<'a> Demand3<'a> {
    pub fn new(table: &'a Table, start: &'a State, log: &'a [Move]) -> Demand3<'a> {
        let mut tracker = Tracker::new(table, start);
        let (mut places, mut concerned, mut growth) = (BTreeMap::new(), Vec::new(), Vec::new());
        for (place, mv) in log.iter().enumerate() {
            assert!(places.insert(tracker.identity(mv), place).is_none(), "two moves with one identity");
            concerned.push(tracker.concerned(mv, place));
            let before = tracker.entries.len() as i64;
            tracker.make(mv, place);
            growth.push(tracker.entries.len() as i64 - before);
        }
        Demand3 { table, start, log, places, concerned, growth, end: tracker.sorted() }
    }

    /// The moves that stand directly before an end.
    fn block(&self, end: usize) -> Vec<usize> {
        let ended = &self.concerned[end];
        (0..self.log.len()).filter(|&other| other != end && !self.concerned[other].is_disjoint(ended)).collect()
    }

    fn is_end(&self, place: usize) -> bool {
        self.log[place].kind != act::REACT
    }

    /// A commit, an abort or a global move without begin.
    fn keeps_order(&self, place: usize) -> bool {
        self.is_end(place) || self.concerned[place].is_empty()
    }

    /// How many members each end has, in order.
    pub fn ended(&self) -> Vec<u32> {
        let ends = (0..self.log.len()).filter(|&place| self.is_end(place));
        ends.map(|place| self.concerned[place].len() as u32).collect()
    }

    /// The tally of its run: a member is known by the place of its begin, and counted by its end.
    pub fn tally(&self) -> Tally {
        let ended = |kind: u32| {
            let ends = (0..self.log.len()).filter(|&place| self.log[place].kind == kind);
            ends.flat_map(|place| &self.concerned[place]).collect::<BTreeSet<_>>().len()
        };
        let begun = (0..self.log.len()).filter(|&place| !self.is_end(place) && self.concerned[place].contains(&place));
        [self.log.len(), begun.count(), ended(act::COMMIT), ended(act::ABORT)].map(|count| count as u32)
    }

    /// The most entries that any state along the serial log holds. A move changes the number of
    /// entries by the same amount wherever it stands.
    pub fn peak(&self) -> usize {
        let mut n = self.start.entries.len() as i64;
        let mut peak = n;
        for place in (0..self.log.len()).filter(|&place| self.keeps_order(place)) {
            let block = if self.is_end(place) { self.block(place) } else { Vec::new() };
            for move_place in block.into_iter().chain([place]) {
                n += self.growth[move_place];
                peak = peak.max(n);
            }
        }
        peak as usize
    }

    /// The clause that the serial log breaks, if it breaks one.
    pub fn check(&self, serial: &[Move]) -> Result<(), &'static str> {
        let places = self.places(serial)?;
        let mut sorted = places.clone();
        sorted.sort_unstable();
        ensure(sorted.into_iter().eq(0..self.log.len()), "each move once")?;
        let kept = places.iter().filter(|&&place| self.keeps_order(place));
        ensure(kept.is_sorted(), "ends and global moves keep their order")?;
        // All moves are in one block or keep their order.
        let mut standing = 0;
        for (now, &place) in places.iter().enumerate() {
            if self.is_end(place) {
                let block = self.block(place);
                ensure(places[..now].ends_with(&block), "a block stands before its end")?;
                standing += block.len() + 1;
            } else if self.keeps_order(place) {
                standing += 1;
            }
        }
        ensure(standing == self.log.len(), "each move in one block")
    }

    /// Which move of the first log each serial move is, by rule and origins or by members ended;
    /// checks ids and the end on the way.
    pub fn places(&self, serial: &[Move]) -> Result<Vec<usize>, &'static str> {
        let mut tracker = Tracker::new(self.table, self.start);
        let mut ids: BTreeMap<usize, u32> = BTreeMap::new();
        let mut places = Vec::new();
        for mv in serial {
            let identity = tracker.identity(mv);
            let place = *self.places.get(&identity).ok_or("the same origins")?;
            if tracker.begins(mv) {
                ids.insert(place, tracker.next);
            }
            if let Identity::End { members, .. } = &identity {
                let smallest = members.iter().map(|begin| ids[begin]).min();
                ensure(Some(mv.number) == smallest, "an end under the smallest id")?;
            }
            tracker.make(mv, place);
            places.push(place);
        }
        let end = tracker.sorted();
        ensure(end.iter().all(|entry| entry.owner == 0), "nothing open at the end")?;
        ensure(end == self.end, "the same global messages")?;
        Ok(places)
    }
}

fn ensure(holds: bool, clause: &'static str) -> Result<(), &'static str> {
    if holds {
        Ok(())
    } else {
        Err(clause)
    }
}
