//! Random logs, made move by move with the plain code.
use super::aborting::{number, reaction_among};
use super::moves::{allowed, consumes, end, open};
use crate::answer::Answer;
use crate::plain;
use crate::random::Random;
use crate::words::{kind, role, Move, State, Table, MAX_MOVES, STATE_TARGET};

/// A state on its way through a log.
pub struct Walk<'a> {
    table: &'a Table,
    table_words: Vec<u32>,
    pub state: State,
    pub log: Vec<Move>,
}

impl<'a> Walk<'a> {
    pub fn new(table: &'a Table, start: &State) -> Walk<'a> {
        Walk { table, table_words: table.words(), state: start.clone(), log: Vec::new() }
    }

    /// Makes the move if it is accepted.
    pub fn make(&mut self, mv: Move) -> bool {
        let mut target = vec![0; STATE_TARGET];
        match plain::make_move(&self.table_words, &self.state.words(), &mv.words(), &mut target) {
            Answer::Moved { words, .. } => {
                self.state = State::from_words(&target[..words as usize]).expect("a state");
                self.log.push(mv);
                true
            }
            _ => false,
        }
    }

    /// Up to `moves` random moves that are accepted.
    pub fn wander(&mut self, random: &mut Random, moves: usize, end_percent: u32) {
        for _ in 0..moves {
            if let Some(mv) = allowed(random, self.table, &self.state, end_percent) {
                self.make(mv);
            }
        }
    }

    /// The moves that it takes to end all transactions under a closable table.
    fn left(&self) -> usize {
        let unfinished = self
            .state
            .entries
            .iter()
            .filter(|entry| entry.owner != 0 && entry.kind == kind::MESSAGE && entry.port >= self.table.global);
        unfinished.count() + open(&self.state).len()
    }

    /// Ends all transactions in random order; the table is closable.
    fn close(&mut self, random: &mut Random) {
        loop {
            let open = open(&self.state);
            if open.is_empty() {
                return;
            }
            let id = random.pick(&open);
            let mv = end(self.table, &self.state, id).unwrap_or_else(|| self.drain(id));
            assert!(self.make(mv), "a closing move is refused");
        }
    }

    /// Takes a message off a local or merge port.
    fn drain(&self, id: u32) -> Move {
        let entries = &self.state.entries;
        let unfinished = |place: &usize| {
            entries[*place].owner == id
                && entries[*place].kind == kind::MESSAGE
                && entries[*place].port >= self.table.global
        };
        let place = (0..entries.len()).find(unfinished).expect("an unfinished message");
        let drains = |rule: &Vec<crate::words::Atom>| {
            let emits_global = rule.iter().all(|atom| atom.role != role::EMIT || atom.port < self.table.global);
            consumes(rule) == [entries[place].port] && emits_global && rule.len() <= 2
        };
        let rule = self.table.rules.iter().position(drains).expect("a rule that drains the port");
        Move::react(rule as u32, &[place as u32])
    }
}

/// A log of at most `moves` accepted moves.
pub fn accepted(random: &mut Random, table: &Table, start: &State, moves: usize) -> Vec<Move> {
    let mut walk = Walk::new(table, start);
    let end_percent = random.pick(&[0, 5, 20, 50]);
    walk.wander(random, moves, end_percent);
    walk.log
}

/// A log whose moves are accepted up to a reaction in a transaction with an abort mark (18), and the place
/// of that one; some moves stand behind it. `None` if none was met in so many moves.
pub fn broken_off(random: &mut Random, table: &Table, start: &State, moves: usize) -> Option<(Vec<Move>, usize)> {
    let mut walk = Walk::new(table, start);
    let end_percent = random.pick(&[0, 5, 20]);
    for _ in 0..moves {
        walk.wander(random, 1, end_percent);
        let among = reaction_among(random, table, &walk.state).filter(|_| random.chance(30));
        let Some(mv) = among.filter(|mv| number(table, &walk.state, mv) == 18) else { continue };
        let place = walk.log.len();
        let mut log = walk.log;
        log.push(mv);
        log.extend((0..random.index(4)).filter_map(|_| allowed(random, table, &walk.state, 50)));
        return Some((log, place));
    }
    None
}

/// A log after which nothing is open; the table is closable and nothing is open at the start.
pub fn closed(random: &mut Random, table: &Table, start: &State, moves: usize) -> Vec<Move> {
    let mut walk = Walk::new(table, start);
    let end_percent = random.pick(&[0, 5, 20, 50]);
    for _ in 0..moves {
        // A reaction adds at most 15 messages, each with a move to drain it, and one end.
        if walk.log.len() + walk.left() + 18 > MAX_MOVES {
            break;
        }
        walk.wander(random, 1, end_percent);
    }
    walk.close(random);
    walk.log
}
