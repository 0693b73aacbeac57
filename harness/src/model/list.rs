//! The list of enabled moves (02: open moves): every choice of messages for a rule's pattern and every
//! end of a transaction is tried on a copy, and kept if it is made. Nothing is counted or skipped, so
//! this takes as long as there are choices. Choices are tried in the list's order, so that its first move
//! is the first that is made.
use super::definitions::{Channel, Definitions};
use super::ordered::Ordered;
use crate::words::{Move, MAX_ENTRIES};

/// A solution whose moves are tried.
pub struct Tried<'a> {
    definitions: &'a Definitions,
    ordered: &'a Ordered,
    /// The channel of each entry that is a message.
    channels: Vec<Option<Channel>>,
    /// What a move is tried on.
    copy: Ordered,
    enabled: Vec<Move>,
    /// With so many found, no more are looked for.
    enough: usize,
}

impl<'a> Tried<'a> {
    pub fn new(definitions: &'a Definitions, ordered: &'a Ordered) -> Tried<'a> {
        let channel = |&name| ordered.solution.message(name).map(|(_, message)| message.channel);
        let channels = ordered.order.iter().map(channel).collect();
        Tried { definitions, ordered, channels, copy: ordered.clone(), enabled: Vec::new(), enough: usize::MAX }
    }

    /// How many reactions there are to try: for each consume of a rule all messages on its channel.
    pub fn candidates(&self) -> u64 {
        let on = |channel: &Channel| self.channels.iter().filter(|other| **other == Some(*channel)).count() as u64;
        self.definitions.rules.iter().map(|rule| rule.pattern.iter().map(on).product::<u64>()).sum()
    }

    /// All enabled moves: reactions by rule and then by picks, commits by id, aborts by id.
    pub fn enabled(mut self) -> Vec<Move> {
        for rule in 0..self.definitions.rules.len() {
            self.choose(rule, &mut Vec::new());
        }
        for end in [Move::commit, Move::abort] {
            self.ordered.solution.transactions.keys().for_each(|&id| self.attempt(end(id)));
        }
        self.enabled
    }

    /// The first of them.
    pub fn first(mut self) -> Option<Move> {
        self.enough = 1;
        self.enabled().first().copied()
    }

    /// Tries every message for the next consume of the rule, and with each the same for those left.
    fn choose(&mut self, rule: usize, picks: &mut Vec<u32>) {
        let Some(&channel) = self.definitions.rules[rule].pattern.get(picks.len()) else {
            return self.attempt(Move::react(rule as u32, picks));
        };
        for place in 0..self.channels.len() {
            if self.channels[place] == Some(channel) && self.enabled.len() < self.enough {
                picks.push(place as u32);
                self.choose(rule, picks);
                picks.pop();
            }
        }
    }

    fn attempt(&mut self, mv: Move) {
        if self.enabled.len() == self.enough {
            return;
        }
        // No log has such a move, so that its products get names of their own.
        let made = self.copy.make_words(self.definitions, &mv.words(), usize::MAX, MAX_ENTRIES);
        if made.is_ok() {
            self.enabled.push(mv);
        }
        // All other refusals leave the copy as it was.
        if matches!(made, Ok(_) | Err(12)) {
            self.copy.clone_from(self.ordered);
        }
    }
}
