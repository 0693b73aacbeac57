//! What a public call answers: one type for the model, the plain code and the library.
use crate::words::{log_target, page_target, MAX_MOVES, STATE_TARGET};

#[derive(Clone, Copy, Debug, PartialEq, Eq)]
pub enum Answer {
    /// The words written by a serial log, a page or an unattended run; 0 for a check.
    Accepted(u32),
    /// A move or a run: the words written, and the member marks removed.
    Moved { words: u32, members: u32 },
    /// 01's or 02's number, other than 16.
    Refused(u32),
    /// Number 16: the move at `place` is refused with its `own` number.
    MoveRefused { place: u32, own: u32 },
}

impl Answer {
    /// 01's or 02's number, 0 for an accepted call.
    pub fn number(self) -> u32 {
        match self {
            Answer::Accepted(_) | Answer::Moved { .. } => 0,
            Answer::Refused(number) => number,
            Answer::MoveRefused { .. } => 16,
        }
    }

    /// The words written.
    pub fn words(self) -> u32 {
        match self {
            Answer::Accepted(words) | Answer::Moved { words, .. } => words,
            Answer::Refused(_) | Answer::MoveRefused { .. } => 0,
        }
    }

    /// The member marks removed.
    pub fn members(self) -> u32 {
        match self {
            Answer::Moved { members, .. } => members,
            _ => 0,
        }
    }

    /// What C gets: number, words, place, own and members.
    pub fn in_c(self) -> [u32; 5] {
        let (place, own) = match self {
            Answer::MoveRefused { place, own } => (place, own),
            _ => (0, 0),
        };
        [self.number(), self.words(), place, own, self.members()]
    }

    /// The answer of a check.
    pub fn of_check<T>(checked: Result<T, u32>) -> Answer {
        match checked {
            Ok(_) => Answer::Accepted(0),
            Err(number) => Answer::Refused(number),
        }
    }

    /// Puts accepted words at the front of the target, which the caller has found long enough.
    pub fn write(words: &[u32], target: &mut [u32]) -> Answer {
        target[..words.len()].copy_from_slice(words);
        Answer::Accepted(words.len() as u32)
    }
}

/// A call on a table, a state, a move or log, and a target.
pub type OnTarget<A = Answer> = fn(&[u32], &[u32], &[u32], &mut [u32]) -> A;

/// What a run counts, the caller's four words: moves, and members begun, committed and aborted (02: moves made, lots
/// opened, released, called off).
pub type Tally = [u32; 4];

/// The run on a table, a state, a log, the caller's tally and a target.
pub type OnTally = fn(&[u32], &[u32], &[u32], &mut Tally, &mut [u32]) -> Answer;

/// The words of a target for a run in the shape of the other calls.
pub const RUN_TARGET: usize = STATE_TARGET + 4;

/// The run in the shape of the other calls. Its tally goes behind the largest state, so that a target has all that is
/// answered.
pub fn run_on_target(call: OnTally, table: &[u32], state: &[u32], log: &[u32], target: &mut [u32]) -> Answer {
    let (target, behind) = target.split_at_mut(STATE_TARGET);
    call(table, state, log, behind.first_chunk_mut().expect("room for a tally"), target)
}

/// What the list of enabled moves answers: the words of a page, and how many moves the whole list has,
/// 0 if it is refused.
#[derive(Clone, Copy, Debug, PartialEq, Eq)]
pub struct Page {
    pub answer: Answer,
    pub length: u64,
}

impl Page {
    /// A list that is refused.
    pub fn refused(number: u32) -> Page {
        Page { answer: Answer::Refused(number), length: 0 }
    }
}

/// The list on a table and a state: a first place, a count, and a target.
pub type OnPage = fn(&[u32], &[u32], u64, u32, &mut [u32]) -> Page;

/// A first place and a count as words, for what measures all calls alike.
pub fn page_words(first: u64, count: u32) -> Vec<u32> {
    vec![first as u32, (first >> 32) as u32, count]
}

/// The list in the shape of the other calls. The length goes behind the longest page, so that a target
/// has all that is answered.
pub fn page_on_target(call: OnPage, table: &[u32], state: &[u32], asked: &[u32], target: &mut [u32]) -> Answer {
    let (page, behind) = target.split_at_mut(page_target(u32::MAX));
    let Page { answer, length } = call(table, state, u64::from(asked[1]) << 32 | u64::from(asked[0]), asked[2], page);
    behind[..2].copy_from_slice(&[length as u32, (length >> 32) as u32]);
    answer
}

/// What the preview of a move answers: the number with which the move would be refused, 0 for none, and what
/// it would leave. On a refusal all figures are 0.
#[derive(Clone, Copy, Debug, PartialEq, Eq)]
pub struct Preview {
    pub number: u32,
    /// The entries of the state after the move.
    pub entries: u32,
    /// The next id of that state.
    pub next: u32,
    /// The transaction concerned: begun, reacting, committed or aborted, after a merge the smallest id of
    /// those merged; 0 for none.
    pub id: u32,
    /// The member marks that the move removes.
    pub members: u32,
}

impl Preview {
    /// A move that would be made.
    pub fn accepted(entries: usize, next: u32, id: u32, members: u32) -> Preview {
        Preview { number: 0, entries: entries as u32, next, id, members }
    }

    /// A move that would be refused.
    pub fn refused(number: u32) -> Preview {
        Preview { number, entries: 0, next: 0, id: 0, members: 0 }
    }
}

/// The preview on a table, a state and a move.
pub type OnMove = fn(&[u32], &[u32], &[u32]) -> Preview;

/// The preview in the shape of the other calls. Its figures go to the front of the target, so that a target
/// has all that is answered.
pub fn preview_on_target(call: OnMove, table: &[u32], state: &[u32], mv: &[u32], target: &mut [u32]) -> Answer {
    match call(table, state, mv) {
        Preview { number: 0, entries, next, id, members } => Answer::write(&[entries, next, id, members], target),
        Preview { number, .. } => Answer::Refused(number),
    }
}

/// What an unattended run answers: the words of its log, how many moves it made, and whether none is enabled after them
/// (02: still; otherwise spent). A refusal has no moves and is not still.
#[derive(Clone, Copy, Debug, PartialEq, Eq)]
pub struct Unattended {
    pub answer: Answer,
    pub moves: u32,
    pub still: bool,
}

impl Unattended {
    pub fn refused(number: u32) -> Unattended {
        Unattended { answer: Answer::Refused(number), moves: 0, still: false }
    }

    /// What C gets: number, words, moves and still.
    pub fn in_c(self) -> [u32; 4] {
        [self.answer.number(), self.answer.words(), self.moves, self.still.into()]
    }
}

/// The unattended run on a table, a state, a budget and a target.
pub type OnBudget = fn(&[u32], &[u32], u32, &mut [u32]) -> Unattended;

/// The words of a target for an unattended run in the shape of the other calls.
pub const UNATTENDED_TARGET: usize = log_target(MAX_MOVES) + 2;

/// The unattended run in the shape of the other calls. Its figures go behind the longest log, so that a target has all
/// that is answered.
pub fn unattended_on_target(call: OnBudget, table: &[u32], state: &[u32], asked: &[u32], target: &mut [u32]) -> Answer {
    let (log, behind) = target.split_at_mut(log_target(MAX_MOVES));
    let Unattended { answer, moves, still } = call(table, state, asked[0], log);
    behind[..2].copy_from_slice(&[moves, still.into()]);
    answer
}

/// The order of faults for each call, by 01 and 02: the first one that an input has counts. 15 comes
/// twice, for the log's start and its end.
pub mod order {
    pub const CHECK_TABLE: [u32; 2] = [1, 2];
    pub const CHECK_STATE: [u32; 4] = [1, 2, 3, 4];
    pub const MOVE: [u32; 13] = [1, 2, 3, 4, 5, 6, 7, 8, 18, 9, 10, 11, 12];
    pub const PREVIEW: [u32; 12] = [1, 2, 3, 4, 5, 7, 8, 18, 9, 10, 11, 12];
    pub const RUN: [u32; 7] = [1, 2, 3, 4, 13, 6, 16];
    pub const SERIALIZE: [u32; 11] = [1, 2, 3, 4, 13, 6, 14, 15, 16, 15, 17];
    pub const LIST_MOVES: [u32; 5] = [1, 2, 3, 4, 6];
    pub const RUN_UNATTENDED: [u32; 6] = [1, 2, 3, 4, 19, 6];
    pub const PROGRAM: [u32; 5] = [1, 2, 3, 4, 13];
}
