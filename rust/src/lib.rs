//! Safe Rust over the proved archive `libcoordinator.a`.
//!
//! A table of rules, a state, a move and a log are lists of 32-bit words; document 01 gives their
//! layout. [`Table`], [`State`], [`Move`] and [`Log`] borrow such words and check nothing, so that
//! words from a file or a line can be handed over as they are: every call checks all that it is
//! handed, and answers a [`Refusal`] with the number of document 01 or 02. [`TableBuilder`],
//! [`StateBuilder`], [`LogBuilder`] and [`react`], [`commit`], [`abort`] write the words.
//! [`enabled_moves`] goes through the moves that can be made, [`preview`] tells what one would do, and
//! [`make_move`] makes it; [`run`] makes a whole log and gives a [`Tally`] of it; [`run_unattended`] chooses the
//! moves itself and gives their log.
//!
//! No call allocates, keeps anything, or panics. A refused call leaves its target as it was; an
//! accepted one leaves it as it was beyond the words that it gives back. Each call runs in a
//! thread with 256 KB of stack.
//!
//! ```
//! use coordinator::*;
//!
//! // Port 0 is global, port 1 local. A message on port 0 begins a transaction with it inside.
//! let received = Value::Received(0);
//! let table = TableBuilder::new(1, 1, 0)
//!     .rule([Atom::Consume { port: 0 }, Atom::Begin, Atom::Body { port: 1, value: received }])
//!     .words();
//! check_table(Table::new(&table))?;
//!
//! let start = StateBuilder::new(1).message(0, 0, 7).words();
//! check_state(Table::new(&table), State::new(&start))?;
//!
//! // The message at place 0 begins transaction 1.
//! let mut target = [0; STATE_TARGET_WORDS];
//! let mv = react(0, &[0]);
//! let after = make_move(Table::new(&table), State::new(&start), Move::new(&mv), &mut target)?.state;
//! assert_eq!(after.next(), Some(2));
//!
//! // What can be done next: nothing takes the message inside, so the transaction cannot end either.
//! assert_eq!(enabled_moves(Table::new(&table), after)?.count(), 0);
//! # Ok::<(), Refusal>(())
//! ```
#![warn(missing_docs)]
mod boundary;
mod log;
mod moved;
mod page;
mod preview;
mod ran;
mod refusal;
mod state;
mod table;
mod unattended;

pub use log::{abort, commit, react, Log, LogBuilder, Move};
pub use moved::Moved;
pub use page::{enabled_moves, EnabledMoves, Page};
pub use preview::{preview, Preview};
pub use ran::{Ran, Tally};
pub use refusal::Refusal;
pub use state::{Entry, Item, State, StateBuilder};
pub use table::{Atom, Table, TableBuilder, Value};
pub use unattended::{run_unattended, Unattended};

/// Ports of a table, of all three classes together.
pub const MAX_PORTS: usize = 256;
/// Rules of a table.
pub const MAX_RULES: usize = 64;
/// Atoms of a table.
pub const MAX_ATOMS: usize = 512;
/// Atoms of a rule, its consumes included.
pub const MAX_RULE_ATOMS: usize = 16;
/// Consumes of a rule, and picks of a move.
pub const MAX_CONSUMES: usize = 4;
/// Entries of a state.
pub const MAX_ENTRIES: usize = 1024;
/// The next id of a state; a transaction's id is below it.
pub const MAX_NEXT: u32 = 65_536;
/// Moves of a log, and so of the budget of an unattended run.
pub const MAX_MOVES: usize = 1024;
/// The words of a move.
pub const MOVE_WORDS: usize = 1 + MAX_CONSUMES;
/// The words that a target for a state must have, however small the state.
pub const STATE_TARGET_WORDS: usize = 2 + 2 * MAX_ENTRIES;

/// Moves of a page of the list of enabled moves, whatever the count.
pub const MAX_PAGE_MOVES: usize = 256;

/// The words that a target for the serial log of `moves` moves must have, or for an unattended run with this budget.
pub const fn log_target_words(moves: usize) -> usize {
    1 + MOVE_WORDS * moves
}

/// The words that a target for a page of `count` moves must have, even if the list has fewer.
pub const fn page_target_words(count: u32) -> usize {
    let moves = count as usize;
    MOVE_WORDS * if moves < MAX_PAGE_MOVES { moves } else { MAX_PAGE_MOVES }
}

/// Whether a table is well formed. Refusals: 1, 2.
pub fn check_table(table: Table<'_>) -> Result<(), Refusal> {
    boundary::check_table(table.words()).result().map(|_| ())
}

/// Whether a state is well formed under its table. Refusals: 1 to 4.
pub fn check_state(table: Table<'_>, state: State<'_>) -> Result<(), Refusal> {
    boundary::check_state(table.words(), state.words()).result().map(|_| ())
}

/// The state after one move, written to the front of the target, and the member marks that it removed: all of its
/// transaction's for a commit or an abort, none for a reaction. Refusals: 1 to 8, 18, 9 to 12, in that order.
pub fn make_move<'t>(
    table: Table<'_>,
    state: State<'_>,
    mv: Move<'_>,
    target: &'t mut [u32],
) -> Result<Moved<'t>, Refusal> {
    let (words, members) = boundary::make_move(table.words(), state.words(), mv.words(), target).moved()?;
    Ok(Moved { state: State::new(&target[..words]), members })
}

/// The state after a log's moves one after another, written to the front of the target, the member marks that all of
/// them removed, and the [`Tally`] of the run, which counts from zero. A refused run has no tally, however many of its
/// moves were accepted. Refusals: 1 to 4, 13, 6, and 16 with the place and own number of the move refused.
pub fn run<'t>(table: Table<'_>, state: State<'_>, log: Log<'_>, target: &'t mut [u32]) -> Result<Ran<'t>, Refusal> {
    let mut tally = Tally::default();
    let answer = boundary::run(table.words(), state.words(), log.words(), &mut tally, target);
    let (words, members) = answer.moved()?;
    Ok(Ran { state: State::new(&target[..words]), members, tally })
}

/// The serial log: the same moves, each transaction's together and right before its end, written
/// to the front of the target. Its [`run`] removes as many member marks as that of the log.
/// Refusals: 1 to 4, 13, 6, 14, 15 (start), 16, 15 (end), 17.
pub fn serialize<'t>(
    table: Table<'_>,
    state: State<'_>,
    log: Log<'_>,
    target: &'t mut [u32],
) -> Result<Log<'t>, Refusal> {
    let words = boundary::serialize(table.words(), state.words(), log.words(), target).result()?;
    Ok(Log::new(&target[..words]))
}

/// A page of the list of enabled moves (02: open moves), written to the front of the target, and the
/// length of the whole list.
///
/// The list has every move that [`make_move`] would accept, once: reactions by rule and then by their
/// picks, then commits by id, then aborts by id. The page's first move has the place `first` in it, from
/// 0. It has `count` moves, at most [`MAX_PAGE_MOVES`], or what the list has from there on, which may be
/// nothing. The target wants [`page_target_words`] in any case; with a count of 0 that is none, and the
/// length is the answer. [`enabled_moves`] goes through all pages. Refusals: 1 to 4, 6.
pub fn list_moves<'t>(
    table: Table<'_>,
    state: State<'_>,
    first: u64,
    count: u32,
    target: &'t mut [u32],
) -> Result<Page<'t>, Refusal> {
    let (words, length) = boundary::list_moves(table.words(), state.words(), first, count, target).result()?;
    Ok(Page::new(&target[..words], length))
}
