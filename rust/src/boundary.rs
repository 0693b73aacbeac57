//! The C interface of the archive, declared once; `include/coordinator.h` says the same to C.
use crate::{Preview, Refusal, Tally};

/// Number 0: accepted, with the words written, and of a move or a run the member marks removed; else both are 0.
/// Place and own only with 16, else 0.
#[repr(C)]
pub struct Answer {
    number: u32,
    words: u32,
    place: u32,
    own: u32,
    members: u32,
}

impl Answer {
    /// The words written by a check or a serialize, or why it was refused.
    pub fn result(self) -> Result<usize, Refusal> {
        let (words, members) = self.moved()?;
        debug_assert!(members == 0, "members without a move");
        Ok(words)
    }

    /// The words written by a move or a run and the member marks that it removed, or why it was refused.
    pub fn moved(self) -> Result<(usize, u32), Refusal> {
        let Answer { number, words, place, own, members } = self;
        debug_assert!(number == 0 || (words, members) == (0, 0), "a refusal counts words or members");
        debug_assert!(number == 16 || (place, own) == (0, 0), "place and own without 16");
        match number {
            0 => Ok((words as usize, members)),
            16 => Err(Refusal::MoveRefused { place, own }),
            number => Err(Refusal::from_number(number)),
        }
    }
}

/// Number 0: accepted, with what the move would do; else the other figures are 0.
#[repr(C)]
pub struct PreviewAnswer {
    number: u32,
    entries: u32,
    next: u32,
    id: u32,
    members: u32,
}

impl PreviewAnswer {
    /// What the move would do, or why it would be refused.
    pub fn result(self) -> Result<Preview, Refusal> {
        let PreviewAnswer { number, entries, next, id, members } = self;
        debug_assert!(number == 0 || (entries, next, id, members) == (0, 0, 0, 0), "a refusal has figures");
        match number {
            0 => Ok(Preview { entries, next, id, members }),
            number => Err(Refusal::from_number(number)),
        }
    }
}

/// Number 0: accepted, with the words written and the length of the whole list; else both are 0.
#[repr(C)]
pub struct Page {
    number: u32,
    words: u32,
    length: u64,
}

impl Page {
    /// The words written and the list's length, or why the call was refused.
    pub fn result(self) -> Result<(usize, u64), Refusal> {
        let Page { number, words, length } = self;
        debug_assert!(number == 0 || (words, length) == (0, 0), "a refusal has figures");
        match number {
            0 => Ok((words as usize, length)),
            number => Err(Refusal::from_number(number)),
        }
    }
}

/// Number 0: accepted, with the words written, the moves made, and whether none is enabled after them; else all are 0.
#[repr(C)]
pub struct Unattended {
    number: u32,
    words: u32,
    moves: u32,
    still: u32,
}

impl Unattended {
    /// The words written, the moves made, and whether none is enabled after them, or why the call was refused.
    pub fn result(self) -> Result<(usize, u32, bool), Refusal> {
        let Unattended { number, words, moves, still } = self;
        debug_assert!(number == 0 || (words, moves, still) == (0, 0, 0), "a refusal has figures");
        match number {
            0 => Ok((words as usize, moves, still != 0)),
            number => Err(Refusal::from_number(number)),
        }
    }
}

/// A move and a serialize have one shape: table, state, move or log, target.
type OnTarget = unsafe extern "C" fn(
    table: *const u32,
    table_len: usize,
    state: *const u32,
    state_len: usize,
    third: *const u32,
    third_len: usize,
    target: *mut u32,
    target_len: usize,
) -> Answer;

mod c {
    use super::{Answer, Page, PreviewAnswer, Tally, Unattended};

    extern "C" {
        pub fn coordinator_check_table(table: *const u32, table_len: usize) -> Answer;
        pub fn coordinator_check_state(
            table: *const u32,
            table_len: usize,
            state: *const u32,
            state_len: usize,
        ) -> Answer;
        pub fn coordinator_move(
            table: *const u32,
            table_len: usize,
            state: *const u32,
            state_len: usize,
            mv: *const u32,
            mv_len: usize,
            target: *mut u32,
            target_len: usize,
        ) -> Answer;
        pub fn coordinator_preview(
            table: *const u32,
            table_len: usize,
            state: *const u32,
            state_len: usize,
            mv: *const u32,
            mv_len: usize,
        ) -> PreviewAnswer;
        pub fn coordinator_run(
            table: *const u32,
            table_len: usize,
            state: *const u32,
            state_len: usize,
            log: *const u32,
            log_len: usize,
            tally: *mut Tally,
            target: *mut u32,
            target_len: usize,
        ) -> Answer;
        pub fn coordinator_serialize(
            table: *const u32,
            table_len: usize,
            state: *const u32,
            state_len: usize,
            log: *const u32,
            log_len: usize,
            target: *mut u32,
            target_len: usize,
        ) -> Answer;
        pub fn coordinator_list_moves(
            table: *const u32,
            table_len: usize,
            state: *const u32,
            state_len: usize,
            first: u64,
            count: u32,
            target: *mut u32,
            target_len: usize,
        ) -> Page;
        pub fn coordinator_run_unattended(
            table: *const u32,
            table_len: usize,
            state: *const u32,
            state_len: usize,
            budget: u32,
            target: *mut u32,
            target_len: usize,
        ) -> Unattended;
    }
}

// SAFETY, of every call below: a slice is valid for its length in words, the target and a tally are
// borrowed for writing and so overlap none of the others, and the archive keeps no pointer.

pub fn check_table(table: &[u32]) -> Answer {
    unsafe { c::coordinator_check_table(table.as_ptr(), table.len()) }
}

pub fn check_state(table: &[u32], state: &[u32]) -> Answer {
    unsafe { c::coordinator_check_state(table.as_ptr(), table.len(), state.as_ptr(), state.len()) }
}

fn on_target(call: OnTarget, table: &[u32], state: &[u32], third: &[u32], target: &mut [u32]) -> Answer {
    unsafe {
        call(
            table.as_ptr(),
            table.len(),
            state.as_ptr(),
            state.len(),
            third.as_ptr(),
            third.len(),
            target.as_mut_ptr(),
            target.len(),
        )
    }
}

pub fn make_move(table: &[u32], state: &[u32], mv: &[u32], target: &mut [u32]) -> Answer {
    on_target(c::coordinator_move, table, state, mv, target)
}

pub fn preview(table: &[u32], state: &[u32], mv: &[u32]) -> PreviewAnswer {
    unsafe { c::coordinator_preview(table.as_ptr(), table.len(), state.as_ptr(), state.len(), mv.as_ptr(), mv.len()) }
}

pub fn run(table: &[u32], state: &[u32], log: &[u32], tally: &mut Tally, target: &mut [u32]) -> Answer {
    unsafe {
        c::coordinator_run(
            table.as_ptr(),
            table.len(),
            state.as_ptr(),
            state.len(),
            log.as_ptr(),
            log.len(),
            tally,
            target.as_mut_ptr(),
            target.len(),
        )
    }
}

pub fn serialize(table: &[u32], state: &[u32], log: &[u32], target: &mut [u32]) -> Answer {
    on_target(c::coordinator_serialize, table, state, log, target)
}

pub fn list_moves(table: &[u32], state: &[u32], first: u64, count: u32, target: &mut [u32]) -> Page {
    unsafe {
        c::coordinator_list_moves(
            table.as_ptr(),
            table.len(),
            state.as_ptr(),
            state.len(),
            first,
            count,
            target.as_mut_ptr(),
            target.len(),
        )
    }
}

pub fn run_unattended(table: &[u32], state: &[u32], budget: u32, target: &mut [u32]) -> Unattended {
    unsafe {
        c::coordinator_run_unattended(
            table.as_ptr(),
            table.len(),
            state.as_ptr(),
            state.len(),
            budget,
            target.as_mut_ptr(),
            target.len(),
        )
    }
}
