//! The list of enabled moves, in pages and as an iterator.
use std::fmt;
use std::iter::FusedIterator;

use crate::{list_moves, Refusal, State, Table, MAX_PAGE_MOVES, MOVE_WORDS};

/// A page of the list of enabled moves.
#[derive(Clone, Copy, Debug, PartialEq, Eq)]
pub struct Page<'a> {
    words: &'a [u32],
    length: u64,
}

impl<'a> Page<'a> {
    pub(crate) fn new(words: &'a [u32], length: u64) -> Page<'a> {
        Page { words, length }
    }

    /// The words of the page: its moves, one after another.
    pub fn words(self) -> &'a [u32] {
        self.words
    }

    /// How many moves the whole list has, whatever part of it the page is.
    pub fn length(self) -> u64 {
        self.length
    }

    /// The moves of the page in order.
    pub fn moves(self) -> impl ExactSizeIterator<Item = [u32; MOVE_WORDS]> + 'a {
        self.words.chunks_exact(MOVE_WORDS).map(|mv| [mv[0], mv[1], mv[2], mv[3], mv[4]])
    }
}

/// All enabled moves of a state, fetched page after page. [`enabled_moves`] makes it.
///
/// It holds one page, 5 KB, and allocates nothing. A list can be very long, so what is skipped is not
/// fetched: `nth`, `skip`, `count` and `last` are quick anywhere in it.
#[derive(Clone)]
pub struct EnabledMoves<'a> {
    table: Table<'a>,
    state: State<'a>,
    length: u64,
    /// The place of the next move in the list.
    place: u64,
    page: [u32; MOVE_WORDS * MAX_PAGE_MOVES],
    /// The places of the page's moves in the list: the first, and the one behind the last.
    first: u64,
    end: u64,
}

/// The moves that can be made in a state, in the order of [`list_moves`]. Refusals: 1 to 4.
///
/// ```
/// use coordinator::*;
///
/// // One message for one.
/// let received = Value::Received(0);
/// let table = TableBuilder::new(2, 0, 0)
///     .rule([Atom::Consume { port: 0 }, Atom::Emit { port: 1, value: received }])
///     .words();
/// let state = StateBuilder::new(1).message(0, 0, 7).message(0, 1, 8).message(0, 0, 9).words();
///
/// let moves = enabled_moves(Table::new(&table), State::new(&state))?;
/// assert_eq!(moves.collect::<Vec<_>>(), [react(0, &[0]), react(0, &[2])]);
/// # Ok::<(), Refusal>(())
/// ```
pub fn enabled_moves<'a>(table: Table<'a>, state: State<'a>) -> Result<EnabledMoves<'a>, Refusal> {
    let page = [0; MOVE_WORDS * MAX_PAGE_MOVES];
    let mut moves = EnabledMoves { table, state, length: 0, place: 0, page, first: 0, end: 0 };
    moves.fetch()?;
    Ok(moves)
}

impl EnabledMoves<'_> {
    /// How many moves the whole list has, those already given included.
    pub fn length(&self) -> u64 {
        self.length
    }

    /// The page whose first move is the next one.
    fn fetch(&mut self) -> Result<(), Refusal> {
        let page = list_moves(self.table, self.state, self.place, MAX_PAGE_MOVES as u32, &mut self.page)?;
        self.length = page.length();
        self.first = self.place;
        self.end = self.place + page.moves().len() as u64;
        Ok(())
    }

    fn left(&self) -> u64 {
        self.length - self.place
    }

    fn skip_places(&mut self, places: u64) -> Option<[u32; MOVE_WORDS]> {
        self.place += places.min(self.left());
        self.next()
    }
}

impl Iterator for EnabledMoves<'_> {
    type Item = [u32; MOVE_WORDS];

    fn next(&mut self) -> Option<[u32; MOVE_WORDS]> {
        if self.left() == 0 {
            return None;
        }
        if !(self.first..self.end).contains(&self.place) {
            self.fetch().expect("the same table and state as before");
        }
        let at = MOVE_WORDS * (self.place - self.first) as usize;
        self.place += 1;
        self.page[at..].first_chunk().copied()
    }

    fn size_hint(&self) -> (usize, Option<usize>) {
        let left = usize::try_from(self.left());
        (left.unwrap_or(usize::MAX), left.ok())
    }

    fn nth(&mut self, n: usize) -> Option<[u32; MOVE_WORDS]> {
        self.skip_places(n as u64)
    }

    fn count(self) -> usize {
        self.left() as usize
    }

    fn last(mut self) -> Option<[u32; MOVE_WORDS]> {
        self.skip_places(self.left().saturating_sub(1))
    }
}

impl FusedIterator for EnabledMoves<'_> {}

/// A list's length is a number of 64 bits.
#[cfg(target_pointer_width = "64")]
impl ExactSizeIterator for EnabledMoves<'_> {}

impl fmt::Debug for EnabledMoves<'_> {
    fn fmt(&self, f: &mut fmt::Formatter<'_>) -> fmt::Result {
        f.debug_struct("EnabledMoves").field("place", &self.place).field("length", &self.length).finish_non_exhaustive()
    }
}
