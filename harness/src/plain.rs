//! The public calls as ordinary fast Rust straight from documents 01 and 02: a second opinion, and
//! the baseline of the benchmark.
mod list;
mod serial;
mod state;
mod step;
mod table;
mod tally;
mod unattended;
mod verdict;

use std::ops::Deref;

use crate::answer::{Answer, Page, Preview, Tally, Unattended};
use crate::words::{log_target, page_target, MAX_ENTRIES, MAX_MOVES, STATE_TARGET};
use list::List;
use state::State;
use step::Call;
use table::Table;
use tally::Running;
use unattended::Counting;

pub fn check_table(table: &[u32]) -> Answer {
    Answer::of_check(Table::read(table))
}

pub fn check_state(table: &[u32], state: &[u32]) -> Answer {
    Answer::of_check(Table::read(table).and_then(|table| State::read(&table, state)))
}

pub fn make_move(table: &[u32], state: &[u32], mv: &[u32], target: &mut [u32]) -> Answer {
    match moved(table, state, mv, target.len()) {
        Ok(state) => state.write(target),
        Err(number) => Answer::Refused(number),
    }
}

fn moved(table: &[u32], state: &[u32], mv: &[u32], room: usize) -> Result<State, u32> {
    let table = Table::read(table)?;
    let mut state = State::read(&table, state)?;
    let (call, picks) = Call::of_words(&table, mv)?;
    if room < STATE_TARGET {
        return Err(6);
    }
    state.make(&table, call, picks)?;
    Ok(state)
}

pub fn preview(table: &[u32], state: &[u32], mv: &[u32]) -> Preview {
    let previewed = || {
        let table = Table::read(table)?;
        previewed(&table, State::read(&table, state)?, mv)
    };
    previewed().unwrap_or_else(Preview::refused)
}

/// The same on the state's words as they are, without columns of its own. No other call does so: a state laid
/// out otherwise would need another preview. For the benchmark, as what there is to gain.
pub fn preview_in_place(table: &[u32], state: &[u32], mv: &[u32]) -> Preview {
    let previewed = || {
        let table = Table::read(table)?;
        previewed(&table, State::of_words(&table, state)?, mv)
    };
    previewed().unwrap_or_else(Preview::refused)
}

fn previewed<C: Deref<Target = [u32]>>(table: &Table, state: State<C>, mv: &[u32]) -> Result<Preview, u32> {
    let (call, picks) = Call::of_words(table, mv)?;
    state.preview(table, call, picks)
}

/// A log's heads and picks, found to be of the right length.
#[derive(Clone, Copy)]
struct Log<'a> {
    heads: &'a [u32],
    picks: &'a [u32],
}

impl<'a> Log<'a> {
    fn read(words: &'a [u32]) -> Result<Log<'a>, u32> {
        let (&k, rest) = words.split_first().ok_or(13u32)?;
        let k = k as usize;
        if k > MAX_MOVES || rest.len() != 5 * k {
            return Err(13);
        }
        let (heads, picks) = rest.split_at(k);
        Ok(Log { heads, picks })
    }

    fn len(self) -> usize {
        self.heads.len()
    }

    fn moves(self) -> impl Iterator<Item = (u32, &'a [u32; 4])> {
        let picks = self.picks.chunks_exact(4).map(|four| <&[u32; 4]>::try_from(four).unwrap());
        self.heads.iter().copied().zip(picks)
    }
}

fn ready<'a>(table: &'a [u32], state: &[u32], log: &'a [u32]) -> Result<(Table<'a>, State, Log<'a>), u32> {
    let table = Table::read(table)?;
    let state = State::read(&table, state)?;
    Ok((table, state, Log::read(log)?))
}

pub fn run(table: &[u32], state: &[u32], log: &[u32], tally: &mut Tally, target: &mut [u32]) -> Answer {
    let (table, mut state, log) = match ready(table, state, log) {
        Ok(ready) => ready,
        Err(number) => return Answer::Refused(number),
    };
    if target.len() < STATE_TARGET {
        return Answer::Refused(6);
    }
    let mut running = Running::default();
    for (place, (head, picks)) in log.moves().enumerate() {
        let made = Call::read(&table, head, picks).and_then(|call| {
            let ended = state.ended;
            state.make(&table, call, picks)?;
            running.add(call, state.ended - ended);
            Ok(())
        });
        if let Err(own) = made {
            return Answer::MoveRefused { place: place as u32, own };
        }
    }
    *tally = running.words();
    state.write(target)
}

pub fn serialize(table: &[u32], state: &[u32], log: &[u32], target: &mut [u32]) -> Answer {
    let (table, state, log) = match ready(table, state, log) {
        Ok(ready) => ready,
        Err(number) => return Answer::Refused(number),
    };
    if target.len() < 1 + 5 * log.len() {
        return Answer::Refused(6);
    }
    match serial::serial(&table, state, log, MAX_ENTRIES) {
        Ok(words) => Answer::write(&words, target),
        Err(answer) => answer,
    }
}

pub fn list_moves(table: &[u32], state: &[u32], first: u64, count: u32, target: &mut [u32]) -> Page {
    let room = page_target(count);
    let mut listed = || {
        let table = Table::read(table)?;
        let state = State::read(&table, state)?;
        let page = target.get_mut(..room).ok_or(6u32)?;
        let list = List::new(&table, &state);
        let words = list.page(first, page) as u32;
        Ok(Page { answer: Answer::Accepted(words), length: list.length })
    };
    listed().unwrap_or_else(Page::refused)
}

pub fn run_unattended(table: &[u32], state: &[u32], budget: u32, target: &mut [u32]) -> Unattended {
    unattended(table, state, budget, target, Counting::Anew)
}

/// The same with counts that follow the moves, as the library's do. For the benchmark, as what is nearest to it.
pub fn run_unattended_along(table: &[u32], state: &[u32], budget: u32, target: &mut [u32]) -> Unattended {
    unattended(table, state, budget, target, Counting::Along)
}

fn unattended(table: &[u32], state: &[u32], budget: u32, target: &mut [u32], counting: Counting) -> Unattended {
    let mut made = || {
        let table = Table::read(table)?;
        let state = State::read(&table, state)?;
        let budget = Some(budget as usize).filter(|&budget| budget <= MAX_MOVES).ok_or(19u32)?;
        let target = target.get_mut(..log_target(budget)).ok_or(6u32)?;
        let unattended::Log { heads, picks, still } = unattended::log(&table, state, budget, counting);
        let moves = heads.len();
        target[0] = moves as u32;
        target[1..1 + moves].copy_from_slice(&heads);
        target[1 + moves..log_target(moves)].copy_from_slice(picks.as_flattened());
        Ok(Unattended { answer: Answer::Accepted(log_target(moves) as u32), moves: moves as u32, still })
    };
    made().unwrap_or_else(Unattended::refused)
}
