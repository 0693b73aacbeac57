//! Random well-formed states.
use crate::random::Random;
use crate::words::{kind, Entry, State, Table, MAX_ENTRIES, MAX_NEXT};

/// A state of at most `most` entries; with transactions (merged, marked to abort) if `open`.
pub fn state(random: &mut Random, table: &Table, most: usize, open: bool) -> State {
    assert!(most <= MAX_ENTRIES);
    let wanted = random.index(most + 1);
    let mut entries: Vec<Entry> = Vec::new();
    let mut free = free_ids(random, wanted);
    if open {
        let transactions = random.pick(&[0, 1, 2, 4, 30, 400]);
        for _ in 0..transactions {
            if entries.len() < wanted {
                transaction(random, table, &mut free, wanted, &mut entries);
            }
        }
    }
    while entries.len() < wanted && table.global > 0 {
        entries.push(Entry::message(0, random.below(table.global), value(random)));
    }
    let highest = highest_member(&entries);
    let next = match random.below(4) {
        0 => MAX_NEXT,
        1 => random.between(highest + 1, MAX_NEXT),
        _ => highest + 1,
    };
    if random.chance(80) {
        random.shuffle(&mut entries);
    }
    State { next, entries }
}

/// The highest id that has been given out for sure; 0 for none.
pub fn highest_member(entries: &[Entry]) -> u32 {
    entries.iter().filter(|entry| entry.kind == kind::MEMBER_MARK).map(|entry| entry.value).max().unwrap_or(0)
}

/// Fills a state up to `n` entries with what no rule takes, in a transaction of its own; only if no id
/// is left for it, the state stays as it is.
pub fn fill(random: &mut Random, table: &Table, state: &mut State, n: usize) {
    let id = highest_member(&state.entries) + 1;
    if id == MAX_NEXT || state.entries.len() >= n {
        return;
    }
    state.next = state.next.max(id + 1);
    let filler = match table.global {
        0 => Entry::abort_mark(id),
        global => Entry::compensation(id, random.below(global), value(random)),
    };
    state.entries.resize(n, filler);
    state.entries[n - 1] = Entry::member_mark(id, id);
    random.shuffle(&mut state.entries);
}

/// Ids in falling order, so that the last is the smallest left; few gaps or many.
fn free_ids(random: &mut Random, wanted: usize) -> Vec<u32> {
    let top = random.pick(&[wanted as u32 + 1, 2_000, 65_535]).max(wanted as u32 + 1);
    let mut ids: Vec<u32> = (0..=wanted).map(|_| random.between(1, top)).collect();
    ids.sort_unstable();
    ids.dedup();
    ids.reverse();
    ids
}

fn value(random: &mut Random) -> u32 {
    match random.below(3) {
        0 => random.pick(&[0, 1, 65_534, 65_535]),
        1 => random.below(65_536),
        _ => random.below(10),
    }
}

fn transaction(random: &mut Random, table: &Table, free: &mut Vec<u32>, wanted: usize, entries: &mut Vec<Entry>) {
    let Some(id) = free.pop() else { return };
    entries.push(Entry::member_mark(id, id));
    let more = random.pick(&[0, 1, 3, 6, 12]).min(wanted - entries.len());
    for _ in 0..more {
        let entry = match random.below(10) {
            0 | 1 => {
                // A merged member has a larger id.
                let Some(member) = (!free.is_empty()).then(|| free.remove(random.index(free.len()))) else { continue };
                Entry::member_mark(id, member)
            }
            2 if random.chance(40) => Entry::abort_mark(id),
            3 if table.global > 0 => Entry::compensation(id, random.below(table.global), value(random)),
            _ if table.ports() > 0 => Entry::message(id, random.below(table.ports()), value(random)),
            _ => continue,
        };
        entries.push(entry);
    }
}

/// Exactly `n` global messages and nothing open; the table has a global port.
pub fn messages(random: &mut Random, table: &Table, n: usize) -> State {
    let message = |random: &mut Random| Entry::message(0, random.below(table.global), value(random));
    State { next: random.pick(&[1, 1, 7, 65_000]), entries: (0..n).map(|_| message(random)).collect() }
}
