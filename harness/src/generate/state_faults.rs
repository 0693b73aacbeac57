//! A right state with one planted fault, whose number is known without asking any implementation.
use crate::random::Random;
use crate::words::{kind, Entry, State, Table, MAX_ENTRIES};

faults! {
    /// One way to damage a right state.
    StateFault {
        3: [
            CutInSizes, TooManyEntries, CountHuge, NextZero, NextTooHigh, WordMissing, WordLeft,
        ]
        4: [
            UnknownKind, GlobalMessageElsewhere, GlobalPortMissing, GlobalOwnsCompensation,
            GlobalOwnsAbortMark, GlobalOwnsMemberMark, MessagePortMissing, CompensationElsewhere,
            CompensationPortMissing, AbortMarkHasPort, AbortMarkHasValue, MemberMarkHasPort,
            MemberRepeatedInside, MemberRepeatedOutside, MemberIsZero, OwnerAboveMember, MemberNotBelowNext,
            OwnMarkMissing, OwnMarkElsewhere, OwnerWithoutMark, OwnerPastIds, OwnerCutToMark,
        ]
    }
}

impl StateFault {
    /// The damaged words, if this state has what the fault needs.
    pub fn plant(self, random: &mut Random, table: &Table, state: &State) -> Option<Vec<u32>> {
        use StateFault::*;
        let mut words = state.words();
        match self {
            CutInSizes => words.truncate(random.index(2)),
            TooManyEntries => {
                // The length fits and the entries are right.
                (table.global > 0).then_some(())?;
                let mut state = state.clone();
                state.entries.resize(random.pick(&[MAX_ENTRIES + 1, MAX_ENTRIES + 2, 2_000]), Entry::message(0, 0, 1));
                return Some(state.words());
            }
            CountHuge => words[0] = random.pick(&[1 << 31, (1 << 31) + state.entries.len() as u32, u32::MAX]),
            NextZero => words[1] = 0,
            NextTooHigh => words[1] = random.pick(&[65_537, 65_538, 1 << 17, u32::MAX]),
            WordMissing => {
                words.pop().filter(|_| !state.entries.is_empty())?;
            }
            WordLeft => words.extend(vec![0; random.pick(&[1, 2, 5])]),
            _ => {
                let mut damaged = state.clone();
                self.damage(random, table, &mut damaged)?;
                words = damaged.words();
            }
        }
        Some(words)
    }

    fn damage(self, random: &mut Random, table: &Table, state: &mut State) -> Option<()> {
        use StateFault::*;
        let next = state.next;
        let entries = &mut state.entries;
        let missing = |random: &mut Random| (table.ports() < 256).then(|| random.between(table.ports(), 255));
        let elsewhere = |random: &mut Random| {
            (table.ports() > table.global).then(|| random.between(table.global, table.ports() - 1))
        };
        let mut find = |want: &dyn Fn(&Entry) -> bool| {
            let found: Vec<usize> = (0..entries.len()).filter(|&at| want(&entries[at])).collect();
            if found.is_empty() {
                None
            } else {
                Some(random.pick(&found))
            }
        };
        let free = |entry: &Entry| entry.owner == 0;
        let of = |wanted: u32| move |entry: &Entry| entry.owner != 0 && entry.kind == wanted;
        let merged = |entry: &Entry| entry.kind == kind::MEMBER_MARK && entry.value != entry.owner;
        let named = |entry: &Entry| entry.kind == kind::MEMBER_MARK && entry.value == entry.owner;
        match self {
            UnknownKind => {
                let at = find(&|_| true)?;
                entries[at].kind = random.pick(&[4, 5, 16, 128, 255]);
            }
            GlobalMessageElsewhere => {
                let at = find(&free)?;
                entries[at].port = elsewhere(random)?;
            }
            GlobalPortMissing => {
                let at = find(&free)?;
                entries[at].port = missing(random)?;
            }
            GlobalOwnsCompensation => {
                let at = find(&free)?;
                entries[at].kind = kind::COMPENSATION;
            }
            GlobalOwnsAbortMark => {
                let at = find(&free)?;
                entries[at] = Entry::abort_mark(0);
            }
            GlobalOwnsMemberMark => {
                // The value is free, so that only the owner is wrong.
                let at = find(&free)?;
                let value = (1..next.min(65_536)).find(|value| entries.iter().all(|entry| entry.value != *value))?;
                entries[at] = Entry::member_mark(0, value);
            }
            MessagePortMissing => {
                let at = find(&of(kind::MESSAGE))?;
                entries[at].port = missing(random)?;
            }
            CompensationElsewhere => {
                let at = find(&of(kind::COMPENSATION))?;
                entries[at].port = elsewhere(random)?;
            }
            CompensationPortMissing => {
                let at = find(&of(kind::COMPENSATION))?;
                entries[at].port = missing(random)?;
            }
            AbortMarkHasPort => {
                let at = find(&of(kind::ABORT_MARK))?;
                entries[at].port = random.between(1, table.ports().saturating_sub(1).max(1));
            }
            AbortMarkHasValue => {
                let at = find(&of(kind::ABORT_MARK))?;
                entries[at].value = random.between(1, 65_535);
            }
            MemberMarkHasPort => {
                let at = find(&of(kind::MEMBER_MARK))?;
                entries[at].port = random.between(1, table.ports().saturating_sub(1).max(1));
            }
            MemberRepeatedInside => {
                let at = find(&of(kind::MEMBER_MARK)).filter(|_| state.entries.len() < MAX_ENTRIES)?;
                let again = state.entries[at];
                state.entries.push(again);
            }
            MemberRepeatedOutside => {
                // A merged member of one transaction is also one of a smaller transaction.
                let at = find(&merged)?;
                let mark = entries[at];
                let other = entries
                    .iter()
                    .find(|entry| named(entry) && entry.owner < mark.value && entry.owner != mark.owner)?
                    .owner;
                (entries.len() < MAX_ENTRIES).then_some(())?;
                entries.push(Entry { owner: other, ..mark });
            }
            MemberIsZero => {
                let at = find(&merged)?;
                entries[at].value = 0;
            }
            OwnerAboveMember => {
                // A member that no one else has, below its transaction's id.
                let at = find(&of(kind::MEMBER_MARK)).filter(|_| entries.len() < MAX_ENTRIES)?;
                let owner = entries[at].owner;
                let marks: Vec<u32> =
                    entries.iter().filter(|entry| entry.kind == kind::MEMBER_MARK).map(|entry| entry.value).collect();
                let value = (1..owner).find(|value| !marks.contains(value))?;
                entries.push(Entry::member_mark(owner, value));
            }
            MemberNotBelowNext => {
                // Highest member at, or one above, the next id.
                let highest =
                    entries.iter().filter(|entry| entry.kind == kind::MEMBER_MARK).map(|entry| entry.value).max()?;
                state.next = random.pick(&[highest, highest.saturating_sub(1)]).max(1);
            }
            OwnMarkMissing => {
                // The mark goes, something else of the transaction stays.
                let at = find(&|entry: &Entry| entry.owner != 0 && !named(entry))?;
                let owner = entries[at].owner;
                entries.retain(|entry| !(named(entry) && entry.owner == owner));
            }
            OwnMarkElsewhere => {
                // A half-made merge: the mark is inside a smaller transaction, the rest is not.
                let at = find(&|entry: &Entry| entry.owner != 0 && !named(entry))?;
                let owner = entries[at].owner;
                let smaller = entries.iter().find(|entry| named(entry) && entry.owner < owner)?.owner;
                entries.iter_mut().find(|entry| named(entry) && entry.owner == owner)?.owner = smaller;
            }
            OwnerWithoutMark => {
                // A global message goes to an id that is not open.
                let at = find(&free)?;
                let id = (1..next).rev().find(|id| !entries.iter().any(|entry| named(entry) && entry.owner == *id))?;
                entries[at].owner = id;
            }
            OwnerPastIds => {
                let at = find(&free)?;
                entries[at].owner = random.pick(&[65_536, 65_537, 1 << 31, u32::MAX]);
            }
            OwnerCutToMark => {
                // The owner's low 16 bits name an open transaction.
                let at = find(&|entry: &Entry| entry.owner != 0 && !named(entry))?;
                entries[at].owner += random.pick(&[1, 2, 65_535]) << 16;
            }
            _ => unreachable!("not a fault of one entry"),
        }
        Some(())
    }
}
