//! The list of enabled moves: counted rule by rule without listing them, and a page found by skipping
//! what stands before it.
use super::state::{Marks, State};
use super::table::{Class, Rule, Table};
use crate::words::{act, kind, MAX_CONSUMES, MAX_ENTRIES, MAX_NEXT};

/// The key of a message is its port, and on a local port so many times its group besides: the place of
/// its transaction among the open ones without an abort mark.
const GROUP: u32 = 512;
/// So many bits hold one of the counts in a word.
const BITS: usize = 20;
/// The key of an entry that no rule may take.
const NO_KEY: u32 = 256;

/// A state as the rules see it.
pub struct List<'a> {
    table: &'a Table<'a>,
    next: u32,
    /// A key for each entry.
    keys: Vec<u32>,
    /// How many entries a port has.
    on_port: [u32; GROUP as usize],
    commits: Marks,
    aborts: Marks,
    /// How many reactions each rule has.
    reactions: Vec<u64>,
    pub length: u64,
}

impl<'a> List<'a> {
    pub fn new(table: &'a Table<'a>, state: &State) -> List<'a> {
        let (mut open, mut aborts, mut unfinished) = (Marks::new(), Marks::new(), Marks::new());
        for (&owner, &item) in state.owners.iter().zip(&state.items) {
            if owner == 0 {
                continue;
            }
            open.add(owner);
            match item >> 24 {
                kind::MESSAGE if item >> 16 >= table.global => unfinished.add(owner),
                kind::ABORT_MARK => aborts.add(owner),
                _ => {}
            }
        }
        // One with an abort mark takes no part in reactions, so it needs no place among the others.
        let going = open.without(&aborts);
        let ids: Vec<u32> = going.numbers(state.next).collect();
        let mut on_port = [0; GROUP as usize];
        let mut keys = Vec::with_capacity(state.items.len());
        for (&owner, &item) in state.owners.iter().zip(&state.items) {
            let key = key(table, &aborts, &ids, owner, item);
            on_port[(key % GROUP) as usize] += 1;
            keys.push(key);
        }
        let commits = going.without(&unfinished);
        let mut list =
            List { table, next: state.next, keys, on_port, commits, aborts, reactions: Vec::new(), length: 0 };
        list.reactions = table.rules.iter().map(|rule| list.count(rule)).collect();
        list.length = list.reactions.iter().sum::<u64>() + list.commits.size() + list.aborts.size();
        list
    }

    /// The reactions of a rule. Whether it may begin and has room does not depend on its picks.
    fn count(&self, rule: &Rule) -> u64 {
        let products = rule.end - rule.first - rule.consumes;
        let full = self.keys.len() + products > MAX_ENTRIES + rule.consumes;
        if full || (rule.begins && self.next == MAX_NEXT) {
            return 0;
        }
        let takes = Takes::new(self.table, rule);
        match rule.class {
            Class::Local => {
                let counts = self.counts(&takes);
                self.firsts(&takes).map(|(_, group)| takes.ways(|j| count_in(counts[group], j))).sum()
            }
            _ => {
                let firsts = u64::from(self.on_port[takes.ports[0] as usize]);
                firsts * takes.ways(|j| self.on_port[takes.ports[j] as usize])
            }
        }
    }

    /// How many messages each group has for the consumes of a local rule but the first, in one pass: a word for
    /// each group, with so many bits for each consume.
    fn counts(&self, takes: &Takes) -> [u64; MAX_ENTRIES] {
        let mut counts = [0; MAX_ENTRIES];
        for &key in &self.keys {
            // Without a branch, since the ports follow no pattern.
            let on = |j: usize| u64::from(key % GROUP == takes.ports[j]) << (BITS * (j - 1));
            counts[(key / GROUP) as usize % MAX_ENTRIES] += on(1) + on(2) + on(3);
        }
        counts
    }

    /// The places of a local rule's first consume, with their groups.
    fn firsts<'b>(&'b self, takes: &'b Takes) -> impl Iterator<Item = (usize, usize)> + 'b {
        let fits = |(_, key): &(usize, &u32)| **key % GROUP == takes.ports[0];
        self.keys.iter().enumerate().filter(fits).map(|(place, key)| (place, (key / GROUP) as usize))
    }

    /// Fills the page with the moves from this place on; the words written.
    pub fn page(&self, first: u64, page: &mut [u32]) -> usize {
        let mut page = Page { words: page, filled: 0, skip: first };
        for (number, (rule, &reactions)) in self.table.rules.iter().zip(&self.reactions).enumerate() {
            if page.full() {
                break;
            }
            if !page.skips(reactions) {
                self.reactions(number as u32, rule, &mut page);
            }
        }
        for (kind, ids) in [(act::COMMIT, &self.commits), (act::ABORT, &self.aborts)] {
            for id in ids.numbers(self.next) {
                if page.full() {
                    break;
                }
                page.offer(kind << 24 | id, [0; 4]);
            }
        }
        page.filled
    }

    fn reactions(&self, head: u32, rule: &Rule, page: &mut Page) {
        let takes = Takes::new(self.table, rule);
        let mut picks = [0; MAX_CONSUMES];
        if rule.class != Class::Local {
            let widths = takes.widths(|j| self.on_port[takes.ports[j] as usize]);
            let choice = Choice { head, count: takes.count, keys: takes.ports, widths };
            return self.choose(&choice, 0, &mut picks, page);
        }
        let counts = self.counts(&takes);
        for (place, group) in self.firsts(&takes) {
            let widths = takes.widths(|j| count_in(counts[group], j));
            if page.skips(widths[0]) {
                continue;
            }
            picks[0] = place as u32;
            let keys = takes.ports.map(|port| group as u32 * GROUP + port);
            self.choose(&Choice { head, count: takes.count, keys, widths }, 1, &mut picks, page);
            if page.full() {
                return;
            }
        }
    }

    /// The moves with these picks before the consume `at`.
    fn choose(&self, choice: &Choice, at: usize, picks: &mut [u32; MAX_CONSUMES], page: &mut Page) {
        if at == choice.count {
            return page.offer(choice.head, *picks);
        }
        let (key, width) = (choice.keys[at], choice.widths[at]);
        for (chunk, keys) in self.keys.chunks(32).enumerate() {
            // A chunk is compared at once, and only one that has the key is looked into.
            if !keys.iter().fold(false, |found, &other| found | (other == key)) {
                continue;
            }
            for (place, &other) in (32 * chunk as u32..).zip(keys) {
                if other != key || picks[..at].contains(&place) || page.skips(width) {
                    continue;
                }
                picks[at] = place;
                self.choose(choice, at + 1, picks, page);
                if page.full() {
                    return;
                }
            }
        }
    }
}

/// The count for a consume in a group's word.
fn count_in(word: u64, j: usize) -> u32 {
    (word >> (BITS * (j - 1))) as u32 % (1 << BITS)
}

fn key(table: &Table, aborts: &Marks, ids: &[u32], owner: u32, item: u32) -> u32 {
    if item >> 24 != kind::MESSAGE {
        return NO_KEY;
    }
    let port = item >> 16;
    match table.class(port) {
        Class::Global if owner != 0 => NO_KEY,
        Class::Local => ids.binary_search(&owner).map_or(NO_KEY, |group| group as u32 * GROUP + port),
        Class::Merge if aborts.has(owner) => NO_KEY,
        _ => port,
    }
}

/// What a rule consumes.
struct Takes {
    count: usize,
    ports: [u32; MAX_CONSUMES],
    /// How many consumes before this one have the same port.
    earlier: [u32; MAX_CONSUMES],
}

impl Takes {
    fn new(table: &Table, rule: &Rule) -> Takes {
        let mut takes = Takes { count: rule.consumes, ports: [0; MAX_CONSUMES], earlier: [0; MAX_CONSUMES] };
        for (j, atom) in table.atoms[rule.first..][..rule.consumes].iter().enumerate() {
            let port = atom >> 16;
            takes.earlier[j] = takes.ports[..j].iter().filter(|&&other| other == port).count() as u32;
            takes.ports[j] = port;
        }
        takes
    }

    /// In how many ways the consumes behind the first can be filled, given how many messages there are for each.
    fn ways<T: Into<u32>>(&self, messages: impl Fn(usize) -> T) -> u64 {
        (1..self.count).map(|j| u64::from(messages(j).into().saturating_sub(self.earlier[j]))).product()
    }

    /// For each consume, the ways of those behind it.
    fn widths<T: Into<u32>>(&self, messages: impl Fn(usize) -> T) -> [u64; MAX_CONSUMES] {
        let mut widths = [1; MAX_CONSUMES];
        for j in (1..self.count).rev() {
            widths[j - 1] = widths[j] * u64::from(messages(j).into().saturating_sub(self.earlier[j]));
        }
        widths
    }
}

/// Reactions of a rule, its consumes each with the key that it wants.
struct Choice {
    head: u32,
    count: usize,
    keys: [u32; MAX_CONSUMES],
    widths: [u64; MAX_CONSUMES],
}

/// A page that is being filled, and how many moves stand before it still.
struct Page<'t> {
    words: &'t mut [u32],
    filled: usize,
    skip: u64,
}

impl Page<'_> {
    fn full(&self) -> bool {
        self.filled == self.words.len()
    }

    /// Whether the next moves of the list, so many, all stand before the page.
    fn skips(&mut self, moves: u64) -> bool {
        let skips = moves <= self.skip;
        if skips {
            self.skip -= moves;
        }
        skips
    }

    /// The next move of the list.
    fn offer(&mut self, head: u32, [a, b, c, d]: [u32; 4]) {
        if !self.skips(1) {
            self.words[self.filled..self.filled + 5].copy_from_slice(&[head, a, b, c, d]);
            self.filled += 5;
        }
    }
}
