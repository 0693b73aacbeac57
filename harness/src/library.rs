//! The proved archive, through the safe crate that buyers use.
use coordinator::{Log, Move, Refusal, State, Table};

use crate::answer::{Answer, Page, Preview, Tally, Unattended};

fn refused(refusal: Refusal) -> Answer {
    match refusal {
        Refusal::MoveRefused { place, own } => Answer::MoveRefused { place, own },
        refusal => Answer::Refused(refusal.number()),
    }
}

/// The answer of a call whose accepted words are counted.
fn answer(written: Result<&[u32], Refusal>) -> Answer {
    written.map_or_else(refused, |words| Answer::Accepted(words.len() as u32))
}

/// The answer of a move or a run that is accepted.
fn moved(state: State, members: u32) -> Answer {
    Answer::Moved { words: state.words().len() as u32, members }
}

pub fn check_table(table: &[u32]) -> Answer {
    answer(coordinator::check_table(Table::new(table)).map(|()| &[][..]))
}

pub fn check_state(table: &[u32], state: &[u32]) -> Answer {
    answer(coordinator::check_state(Table::new(table), State::new(state)).map(|()| &[][..]))
}

pub fn make_move(table: &[u32], state: &[u32], mv: &[u32], target: &mut [u32]) -> Answer {
    let made = coordinator::make_move(Table::new(table), State::new(state), Move::new(mv), target);
    made.map_or_else(refused, |made| moved(made.state, made.members))
}

pub fn preview(table: &[u32], state: &[u32], mv: &[u32]) -> Preview {
    match coordinator::preview(Table::new(table), State::new(state), Move::new(mv)) {
        Ok(coordinator::Preview { entries, next, id, members, .. }) => {
            Preview { number: 0, entries, next, id, members }
        }
        Err(refusal) => Preview::refused(refusal.number()),
    }
}

/// The crate gives a tally where a run is accepted, and takes none.
pub fn run(table: &[u32], state: &[u32], log: &[u32], tally: &mut Tally, target: &mut [u32]) -> Answer {
    match coordinator::run(Table::new(table), State::new(state), Log::new(log), target) {
        Ok(ran) => {
            let coordinator::Tally { moves, begun, committed, aborted } = ran.tally;
            *tally = [moves, begun, committed, aborted];
            moved(ran.state, ran.members)
        }
        Err(refusal) => refused(refusal),
    }
}

pub fn serialize(table: &[u32], state: &[u32], log: &[u32], target: &mut [u32]) -> Answer {
    answer(coordinator::serialize(Table::new(table), State::new(state), Log::new(log), target).map(Log::words))
}

pub fn list_moves(table: &[u32], state: &[u32], first: u64, count: u32, target: &mut [u32]) -> Page {
    match coordinator::list_moves(Table::new(table), State::new(state), first, count, target) {
        Ok(page) => Page { answer: answer(Ok(page.words())), length: page.length() },
        Err(refusal) => Page { answer: refused(refusal), length: 0 },
    }
}

pub fn run_unattended(table: &[u32], state: &[u32], budget: u32, target: &mut [u32]) -> Unattended {
    match coordinator::run_unattended(Table::new(table), State::new(state), budget, target) {
        Ok(coordinator::Unattended { log, moves, still, .. }) => {
            Unattended { answer: answer(Ok(log.words())), moves, still }
        }
        Err(refusal) => Unattended { answer: refused(refusal), moves: 0, still: false },
    }
}
