//! The proved archive as C gets its answers, word by word: the safe crate has no place for figures beside a refusal,
//! for members where no move is made, for the tally that a caller hands in, or for words of which it makes a yes or no,
//! so that it cannot show them.
use crate::answer::{Preview, Tally};

/// Number, words, place, own and members; of a preview number, entries, next, id and members.
#[repr(C)]
struct Words([u32; 5]);

/// Of an unattended run: number, words, moves and still.
#[repr(C)]
struct FourWords([u32; 4]);

type In = *const u32;
type Out = *mut u32;
type OnTarget = unsafe extern "C" fn(In, usize, In, usize, In, usize, Out, usize) -> Words;

// Table, state, move or log, and target, each with its length; a run's tally has none.
extern "C" {
    fn coordinator_check_table(_: In, _: usize) -> Words;
    fn coordinator_check_state(_: In, _: usize, _: In, _: usize) -> Words;
    fn coordinator_preview(_: In, _: usize, _: In, _: usize, _: In, _: usize) -> Words;
    fn coordinator_move(_: In, _: usize, _: In, _: usize, _: In, _: usize, _: Out, _: usize) -> Words;
    fn coordinator_run(_: In, _: usize, _: In, _: usize, _: In, _: usize, tally: Out, _: Out, _: usize) -> Words;
    fn coordinator_serialize(_: In, _: usize, _: In, _: usize, _: In, _: usize, _: Out, _: usize) -> Words;
    fn coordinator_run_unattended(_: In, _: usize, _: In, _: usize, budget: u32, _: Out, _: usize) -> FourWords;
}

// SAFETY, of every call below: each slice is valid for its length, the target is borrowed for writing and so overlaps
// none of the others, a tally is a local of its own, and the archive keeps no pointer.

pub fn check_table(table: &[u32]) -> [u32; 5] {
    unsafe { coordinator_check_table(table.as_ptr(), table.len()) }.0
}

pub fn check_state(table: &[u32], state: &[u32]) -> [u32; 5] {
    unsafe { coordinator_check_state(table.as_ptr(), table.len(), state.as_ptr(), state.len()) }.0
}

pub fn preview(table: &[u32], state: &[u32], mv: &[u32]) -> Preview {
    let Words([number, entries, next, id, members]) =
        unsafe { coordinator_preview(table.as_ptr(), table.len(), state.as_ptr(), state.len(), mv.as_ptr(), mv.len()) };
    Preview { number, entries, next, id, members }
}

fn on_target(call: OnTarget, [table, state, third]: [&[u32]; 3], target: &mut [u32]) -> [u32; 5] {
    let (table_len, state_len, third_len, target_len) = (table.len(), state.len(), third.len(), target.len());
    let [table, state, third] = [table, state, third].map(<[u32]>::as_ptr);
    unsafe { call(table, table_len, state, state_len, third, third_len, target.as_mut_ptr(), target_len) }.0
}

pub fn make_move(table: &[u32], state: &[u32], mv: &[u32], target: &mut [u32]) -> [u32; 5] {
    on_target(coordinator_move, [table, state, mv], target)
}

/// The words on each side of a tally, which no run may touch.
const BESIDE: [u32; 4] = [0x5A5A_5A5A, 0, u32::MAX, 0xA5A5_A5A5];

/// Fails if a word beside the tally is touched.
pub fn run(table: &[u32], state: &[u32], log: &[u32], tally: &mut Tally, target: &mut [u32]) -> [u32; 5] {
    let mut memory = [BESIDE, *tally, BESIDE];
    let (table_len, state_len, log_len, target_len) = (table.len(), state.len(), log.len(), target.len());
    let [table, state, log] = [table, state, log].map(<[u32]>::as_ptr);
    // From a pointer to all of the memory, so that a word beside the four is still in what it points into.
    let four = memory.as_mut_ptr().cast::<u32>().wrapping_add(BESIDE.len());
    let target = target.as_mut_ptr();
    let answer =
        unsafe { coordinator_run(table, table_len, state, state_len, log, log_len, four, target, target_len) }.0;
    let [before, after, behind] = memory;
    assert_eq!([before, behind], [BESIDE; 2], "a word beside the tally is touched");
    *tally = after;
    answer
}

pub fn serialize(table: &[u32], state: &[u32], log: &[u32], target: &mut [u32]) -> [u32; 5] {
    on_target(coordinator_serialize, [table, state, log], target)
}

pub fn run_unattended(table: &[u32], state: &[u32], budget: u32, target: &mut [u32]) -> [u32; 4] {
    let (table_len, state_len, target_len) = (table.len(), state.len(), target.len());
    let [table, state] = [table, state].map(<[u32]>::as_ptr);
    unsafe { coordinator_run_unattended(table, table_len, state, state_len, budget, target.as_mut_ptr(), target_len) }.0
}
