//! The words of moves and logs.
use crate::{MAX_CONSUMES, MOVE_WORDS};

/// The words of a move, not checked.
#[derive(Clone, Copy, Debug, PartialEq, Eq)]
pub struct Move<'a>(&'a [u32]);

impl<'a> Move<'a> {
    /// Borrows words of any length and content.
    pub fn new(words: &'a [u32]) -> Move<'a> {
        Move(words)
    }

    /// The words.
    pub fn words(self) -> &'a [u32] {
        self.0
    }
}

/// A reaction: the rule takes the messages at these places, one for each of its consumes, in order.
///
/// # Panics
/// With more than four picks: no rule has so many consumes.
pub fn react(rule: u16, picks: &[u32]) -> [u32; MOVE_WORDS] {
    assert!(picks.len() <= MAX_CONSUMES, "more than {MAX_CONSUMES} picks");
    let mut words = [0; MOVE_WORDS];
    words[0] = u32::from(rule);
    words[1..=picks.len()].copy_from_slice(picks);
    words
}

/// The commit of a transaction (01: release).
pub fn commit(id: u16) -> [u32; MOVE_WORDS] {
    [1 << 24 | u32::from(id), 0, 0, 0, 0]
}

/// The abort of a transaction (01: call off).
pub fn abort(id: u16) -> [u32; MOVE_WORDS] {
    [2 << 24 | u32::from(id), 0, 0, 0, 0]
}

/// The words of a log or a serial log, not checked.
#[derive(Clone, Copy, Debug, PartialEq, Eq)]
pub struct Log<'a>(&'a [u32]);

impl<'a> Log<'a> {
    /// Borrows words of any length and content.
    pub fn new(words: &'a [u32]) -> Log<'a> {
        Log(words)
    }

    /// The words.
    pub fn words(self) -> &'a [u32] {
        self.0
    }

    /// The moves in order, if the words have the layout of a log.
    pub fn moves(self) -> Option<impl ExactSizeIterator<Item = [u32; MOVE_WORDS]> + 'a> {
        let k = *self.0.first()? as usize;
        let columns = self.0.get(1..).filter(|columns| Some(columns.len()) == k.checked_mul(MOVE_WORDS))?;
        let (heads, picks) = columns.split_at(k);
        let moves = heads.iter().zip(picks.chunks_exact(MAX_CONSUMES));
        Some(moves.map(|(&head, picks)| [head, picks[0], picks[1], picks[2], picks[3]]))
    }
}

/// Writes the words of a log, move by move.
#[derive(Clone, Debug, Default)]
pub struct LogBuilder {
    heads: Vec<u32>,
    picks: Vec<u32>,
}

impl LogBuilder {
    /// An empty log.
    pub fn new() -> LogBuilder {
        LogBuilder::default()
    }

    /// Adds a move, as [`react`], [`commit`] and [`abort`] give it.
    pub fn push(mut self, [head, picks @ ..]: [u32; MOVE_WORDS]) -> LogBuilder {
        self.heads.push(head);
        self.picks.extend(picks);
        self
    }

    /// The words.
    pub fn words(&self) -> Vec<u32> {
        [&[self.heads.len() as u32][..], &self.heads, &self.picks].concat()
    }
}
