//! What a move would do, before it is made.
use crate::{boundary, Move, Refusal, State, Table};

/// What a move that is accepted would do. Later versions may tell more.
#[derive(Clone, Copy, Debug, PartialEq, Eq)]
#[non_exhaustive]
pub struct Preview {
    /// The entries of the state after the move.
    pub entries: u32,
    /// The next id of that state (01: N, the next ticket).
    pub next: u32,
    /// The transaction (01: batch) that the move begins, reacts in, commits or aborts, the smallest of
    /// those that it merges, and 0 for a global rule without begin.
    pub id: u32,
    /// The member marks (01: lot marks) that the move would remove, as in [`Moved`](crate::Moved).
    pub members: u32,
}

/// What one move would do. It is not made, and no target is needed.
///
/// It is accepted exactly if [`make_move`](crate::make_move) with a long enough target would accept it, and
/// otherwise refused with the same number. The answer is for the state handed in: after another move, ask
/// again. Refusals: 1 to 5, 7, 8, 18, 9 to 12, in that order.
///
/// ```
/// use coordinator::*;
///
/// // A message on port 0 begins a transaction with it inside.
/// let received = Value::Received(0);
/// let table = TableBuilder::new(1, 1, 0)
///     .rule([Atom::Consume { port: 0 }, Atom::Begin, Atom::Body { port: 1, value: received }])
///     .words();
/// let state = StateBuilder::new(5).message(0, 0, 7).words();
/// let (table, state) = (Table::new(&table), State::new(&state));
///
/// // For the message a member mark and the message inside; transaction 5 begins.
/// let begin = preview(table, state, Move::new(&react(0, &[0])))?;
/// assert_eq!((begin.entries, begin.next, begin.id, begin.members), (2, 6, 5, 0));
///
/// // It has not begun, and so cannot be committed.
/// assert_eq!(preview(table, state, Move::new(&commit(5))), Err(Refusal::NoTransaction));
/// # Ok::<(), Refusal>(())
/// ```
pub fn preview(table: Table<'_>, state: State<'_>, mv: Move<'_>) -> Result<Preview, Refusal> {
    boundary::preview(table.words(), state.words(), mv.words()).result()
}
