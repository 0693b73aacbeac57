//! What a move leaves.
use crate::State;

/// The state after a move, and the member marks (01: lot marks) that it removed. Later versions may tell more.
///
/// ```
/// use coordinator::*;
///
/// // Transactions 1 and 2 have merged, and nothing else is left of them: the commit ends both members.
/// let table = TableBuilder::new(0, 0, 0).words();
/// let merged = [1, 2].into_iter().fold(StateBuilder::new(3), |state, id| state.entry(1, Item::MemberMark { id }));
/// let merged = merged.words();
/// let mut target = [0; STATE_TARGET_WORDS];
/// let end = make_move(Table::new(&table), State::new(&merged), Move::new(&commit(1)), &mut target)?;
/// assert_eq!((end.state.words(), end.members), (&[0, 3][..], 2));
/// # Ok::<(), Refusal>(())
/// ```
#[derive(Clone, Copy, Debug, PartialEq, Eq)]
#[non_exhaustive]
pub struct Moved<'t> {
    /// The state, at the front of the target.
    pub state: State<'t>,
    /// All member marks of the transaction that was committed or aborted; 0 for a reaction. A merged transaction has
    /// several.
    pub members: u32,
}
