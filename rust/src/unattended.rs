//! A run that nobody attends.
use crate::{boundary, Log, Refusal, State, Table};

/// What an unattended run did. Later versions may tell more.
#[derive(Clone, Copy, Debug, PartialEq, Eq)]
#[non_exhaustive]
pub struct Unattended<'t> {
    /// The log of the moves made, at the front of the target.
    pub log: Log<'t>,
    /// How many moves were made: those of the log.
    pub moves: u32,
    /// No move is enabled in the state reached (02: still). Otherwise as many moves were made as the budget has, and
    /// one is enabled (02: spent).
    pub still: bool,
}

/// Makes the first of the [`enabled_moves`](crate::enabled_moves) again and again, until there is none or as many are
/// made as the budget has, and gives the log of these moves, written to the front of the target.
///
/// The state reached is not written: [`run`](crate::run) accepts the log from the same state and gives it, with a
/// tally. A larger budget gives the same moves, and perhaps more behind them. The budget is at most
/// [`MAX_MOVES`](crate::MAX_MOVES); the target wants [`log_target_words`](crate::log_target_words) of it, however few
/// moves are made. Refusals: 1 to 4, 19, 6, in that order.
///
/// ```
/// use coordinator::*;
///
/// // A message on port 0 goes to port 1. There are two.
/// let received = Value::Received(0);
/// let table = TableBuilder::new(2, 0, 0)
///     .rule([Atom::Consume { port: 0 }, Atom::Emit { port: 1, value: received }])
///     .words();
/// let start = StateBuilder::new(1).message(0, 0, 7).message(0, 0, 9).words();
/// let (table, start) = (Table::new(&table), State::new(&start));
///
/// let mut target = [0; log_target_words(5)];
/// let alone = run_unattended(table, start, 5, &mut target)?;
/// assert_eq!((alone.moves, alone.still), (2, true));
///
/// // The log is run to get the state reached.
/// let mut target = [0; STATE_TARGET_WORDS];
/// let end = run(table, start, alone.log, &mut target)?;
/// assert_eq!(end.state.words(), StateBuilder::new(1).message(0, 1, 7).message(0, 1, 9).words());
///
/// // With a budget of one move the second is still enabled.
/// let mut target = [0; log_target_words(1)];
/// assert!(!run_unattended(table, start, 1, &mut target)?.still);
/// # Ok::<(), Refusal>(())
/// ```
pub fn run_unattended<'t>(
    table: Table<'_>,
    state: State<'_>,
    budget: u32,
    target: &'t mut [u32],
) -> Result<Unattended<'t>, Refusal> {
    let (words, moves, still) = boundary::run_unattended(table.words(), state.words(), budget, target).result()?;
    Ok(Unattended { log: Log::new(&target[..words]), moves, still })
}
