//! The public calls, on words and a target.
use super::colours;
use super::definitions::{Definitions, Product};
use super::list::Tried;
use super::ordered::{Made, Ordered};
use super::tally;
use super::unattended::{alone, Alone};
use crate::answer::{Answer, Page, Preview, Tally, Unattended};
use crate::words::{
    log_from_words, log_target, log_words, page_target, Move, MAX_ENTRIES, MAX_MOVES, MAX_PAGE_MOVES, STATE_TARGET,
};

pub fn check_table(table: &[u32]) -> Answer {
    Answer::of_check(Definitions::read(table))
}

pub fn check_state(table: &[u32], state: &[u32]) -> Answer {
    Answer::of_check(Definitions::read(table).and_then(|definitions| Ordered::read(&definitions, state)))
}

pub fn make_move(table: &[u32], state: &[u32], mv: &[u32], target: &mut [u32]) -> Answer {
    let made = || {
        let definitions = Definitions::read(table)?;
        let mut ordered = Ordered::read(&definitions, state)?;
        // 6 stands between 5 and 7.
        match ordered.make_words(&definitions, mv, 0, MAX_ENTRIES) {
            Err(5) => Err(5),
            _ if target.len() < STATE_TARGET => Err(6),
            Err(number) => Err(number),
            Ok(made) => Ok((ordered, made.members())),
        }
    };
    match made() {
        Ok((after, members)) => write(&after, members, target),
        Err(number) => Answer::Refused(number),
    }
}

/// Puts the state that a move or a run left to the front of the target.
fn write(after: &Ordered, members: u32, target: &mut [u32]) -> Answer {
    let words = after.state().words();
    Answer::write(&words, target);
    Answer::Moved { words: words.len() as u32, members }
}

pub fn preview(table: &[u32], state: &[u32], mv: &[u32]) -> Preview {
    let previewed = || {
        let definitions = Definitions::read(table)?;
        Ordered::read(&definitions, state)?.preview(&definitions, mv)
    };
    previewed().unwrap_or_else(Preview::refused)
}

/// What the calls on logs read, up to refusal 13.
fn read(table: &[u32], state: &[u32], log: &[u32]) -> Result<(Definitions, Ordered, Vec<Move>), Answer> {
    let definitions = Definitions::read(table).map_err(Answer::Refused)?;
    let start = Ordered::read(&definitions, state).map_err(Answer::Refused)?;
    let log = log_from_words(log).filter(|log| log.len() <= MAX_MOVES).ok_or(Answer::Refused(13))?;
    Ok((definitions, start, log))
}

/// The moves in order, each on what the one before left.
fn follow(definitions: &Definitions, mut ordered: Ordered, log: &[Move]) -> Result<(Vec<Made>, Ordered), Answer> {
    let mut history = Vec::new();
    for (place, mv) in log.iter().enumerate() {
        match ordered.make_words(definitions, &mv.words(), place, MAX_ENTRIES) {
            Ok(made) => history.push(made),
            Err(own) => return Err(Answer::MoveRefused { place: place as u32, own }),
        }
    }
    Ok((history, ordered))
}

pub fn run(table: &[u32], state: &[u32], log: &[u32], tally: &mut Tally, target: &mut [u32]) -> Answer {
    let end = || {
        let (definitions, start, log) = read(table, state, log)?;
        if target.len() < STATE_TARGET {
            return Err(Answer::Refused(6));
        }
        follow(&definitions, start, &log)
    };
    match end() {
        Ok((history, end)) => {
            *tally = tally::tally(&history);
            write(&end, history.iter().map(Made::members).sum(), target)
        }
        Err(answer) => answer,
    }
}

pub fn serialize(table: &[u32], state: &[u32], log: &[u32], target: &mut [u32]) -> Answer {
    let serial = || {
        let (definitions, start, log) = read(table, state, log)?;
        if target.len() < 1 + 5 * log.len() {
            return Err(Answer::Refused(6));
        }
        let emits_at_begin = definitions
            .rules
            .iter()
            .any(|rule| matches!(rule.product, Product::Global(Some(_))) && !rule.emits.is_empty());
        if emits_at_begin {
            return Err(Answer::Refused(14));
        }
        if !start.solution.transactions.is_empty() {
            return Err(Answer::Refused(15));
        }
        let (history, end) = follow(&definitions, start.clone(), &log)?;
        if !end.solution.transactions.is_empty() {
            return Err(Answer::Refused(15));
        }
        colours::serial(&definitions, start, &history, MAX_ENTRIES).ok_or(Answer::Refused(17))
    };
    match serial() {
        Ok(serial) => Answer::write(&log_words(&serial), target),
        Err(answer) => answer,
    }
}

/// All enabled moves of a state, or the number of the first fault of table and state. `None` if more
/// than `most` reactions would have to be tried, so that a test can ask for short lists only.
pub fn enabled_moves(table: &[u32], state: &[u32], most: u64) -> Result<Option<Vec<Move>>, u32> {
    let definitions = Definitions::read(table)?;
    let ordered = Ordered::read(&definitions, state)?;
    let tried = Tried::new(&definitions, &ordered);
    Ok((tried.candidates() <= most).then(|| tried.enabled()))
}

pub fn list_moves(table: &[u32], state: &[u32], first: u64, count: u32, target: &mut [u32]) -> Page {
    let listed = || {
        let definitions = Definitions::read(table)?;
        let ordered = Ordered::read(&definitions, state)?;
        if target.len() < page_target(count) {
            return Err(6);
        }
        Ok(Tried::new(&definitions, &ordered).enabled())
    };
    match listed() {
        Ok(all) => {
            let rest = all.iter().skip(usize::try_from(first).unwrap_or(usize::MAX));
            let page: Vec<u32> = rest.take((count as usize).min(MAX_PAGE_MOVES)).flat_map(|mv| mv.words()).collect();
            Page { answer: Answer::write(&page, target), length: all.len() as u64 }
        }
        Err(number) => Page::refused(number),
    }
}

pub fn run_unattended(table: &[u32], state: &[u32], budget: u32, target: &mut [u32]) -> Unattended {
    run_unattended_within(u64::MAX, table, state, budget, target).expect("no limit on what is tried")
}

/// The same, or `None` if a state on the way has more than `most` reactions to try.
pub fn run_unattended_within(
    most: u64,
    table: &[u32],
    state: &[u32],
    budget: u32,
    target: &mut [u32],
) -> Option<Unattended> {
    let checked = || {
        let definitions = Definitions::read(table)?;
        let ordered = Ordered::read(&definitions, state)?;
        if budget as usize > MAX_MOVES {
            return Err(19);
        }
        if target.len() < log_target(budget as usize) {
            return Err(6);
        }
        Ok((definitions, ordered))
    };
    let (definitions, start) = match checked() {
        Ok(checked) => checked,
        Err(number) => return Some(Unattended::refused(number)),
    };
    let Alone { log, still } = alone(&definitions, start, budget as usize, most)?;
    Some(Unattended { answer: Answer::write(&log_words(&log), target), moves: log.len() as u32, still })
}
