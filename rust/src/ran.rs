//! What a run leaves and counts.
use crate::State;

/// What a run counts (02: the shift tally). Each run counts from zero.
///
/// Member marks that are open at the start count like any other when they end, so that after a run the marks of its
/// start and `begun` are together as many as `committed`, `aborted` and the marks still open.
#[derive(Clone, Copy, Debug, Default, PartialEq, Eq)]
#[repr(C)]
pub struct Tally {
    /// The moves made: all of the log's.
    pub moves: u32,
    /// The members begun (02: lots opened): one by each reaction of a rule with a begin.
    pub begun: u32,
    /// The member marks (01: lot marks) that commits removed (02: lots released).
    pub committed: u32,
    /// The member marks that aborts removed (02: lots called off).
    pub aborted: u32,
}

/// The state after a run, the member marks that it removed, and its tally. Later versions may tell more.
///
/// ```
/// use coordinator::*;
///
/// // Transactions 1 and 2 have merged. Their commit ends both members, and the message left begins a third.
/// let table = TableBuilder::new(1, 0, 0).rule([Atom::Consume { port: 0 }, Atom::Begin]).words();
/// let merged = [1, 2].into_iter().fold(StateBuilder::new(3), |state, id| state.entry(1, Item::MemberMark { id }));
/// let merged = merged.message(1, 0, 7).words();
/// let log = LogBuilder::new().push(commit(1)).push(react(0, &[0])).words();
/// let mut target = [0; STATE_TARGET_WORDS];
/// let end = run(Table::new(&table), State::new(&merged), Log::new(&log), &mut target)?;
/// assert_eq!(end.tally, Tally { moves: 2, begun: 1, committed: 2, aborted: 0 });
/// assert_eq!((end.state.next(), end.members), (Some(4), 2));
/// # Ok::<(), Refusal>(())
/// ```
#[derive(Clone, Copy, Debug, PartialEq, Eq)]
#[non_exhaustive]
pub struct Ran<'t> {
    /// The state, at the front of the target.
    pub state: State<'t>,
    /// All member marks of each transaction that was committed or aborted: those that the tally has as `committed` and
    /// as `aborted`.
    pub members: u32,
    /// What the run counted.
    pub tally: Tally,
}
