//! What the program has to print for its standard input, from document 01: the input is read front
//! to back, a part ends where its sizes end it, and the moves are made one by one on words.
use std::fmt::Write;

use crate::answer::{Answer, OnTarget};
use crate::words::{MAX_MOVES, STATE_TARGET};

/// The calls that an opinion on the program's output is made from.
#[derive(Clone, Copy)]
pub struct Calls {
    pub check_table: fn(&[u32]) -> Answer,
    pub check_state: fn(&[u32], &[u32]) -> Answer,
    pub make_move: OnTarget,
}

pub const MODEL: Calls = Calls {
    check_table: crate::model::check_table,
    check_state: crate::model::check_state,
    make_move: crate::model::make_move,
};

pub const PLAIN: Calls = Calls {
    check_table: crate::plain::check_table,
    check_state: crate::plain::check_state,
    make_move: crate::plain::make_move,
};

/// Little-endian words.
pub fn bytes_of(words: &[u32]) -> Vec<u8> {
    words.iter().flat_map(|word| word.to_le_bytes()).collect()
}

/// The program's input.
pub fn input(table: &[u32], state: &[u32], log: &[u32]) -> Vec<u8> {
    [table, state, log].into_iter().flat_map(bytes_of).collect()
}

/// Reads the next `count` words to the end of the part, if the input has them.
fn read(rest: &mut &[u8], part: &mut Vec<u32>, count: u64) -> Option<()> {
    let bytes = usize::try_from(4 * count).ok()?;
    let (front, back) = rest.split_at_checked(bytes)?;
    part.extend(front.chunks_exact(4).map(|four| u32::from_le_bytes(four.try_into().unwrap())));
    *rest = back;
    Some(())
}

/// A part of `sizes` words and `per` words for each one that its last size counts.
fn part(rest: &mut &[u8], sizes: u64, counted: usize, per: u64) -> Option<Vec<u32>> {
    let mut words = Vec::new();
    read(rest, &mut words, sizes)?;
    let count = u64::from(words[counted]);
    read(rest, &mut words, per * count)?;
    Some(words)
}

/// The three parts, or the number of the first fault.
fn parts(calls: Calls, mut rest: &[u8]) -> Result<[Vec<u32>; 3], u32> {
    let passed = |answer: Answer| match answer.number() {
        0 => Ok(()),
        number => Err(number),
    };
    let table = part(&mut rest, 5, 4, 2).ok_or(1u32)?;
    passed((calls.check_table)(&table))?;
    let state = part(&mut rest, 2, 0, 2).ok_or(3u32)?;
    passed((calls.check_state)(&table, &state))?;
    let log = part(&mut rest, 1, 0, 5).ok_or(13u32)?;
    if log[0] as usize > MAX_MOVES || !rest.is_empty() {
        return Err(13);
    }
    Ok([table, state, log])
}

/// The whole output.
pub fn output(calls: Calls, input: &[u8]) -> String {
    let [table, mut state, log] = match parts(calls, input) {
        Ok(parts) => parts,
        Err(number) => return format!("refused {number}\n"),
    };
    let k = log[0] as usize;
    let mut text = format!("moves {k} entries {} next {}\n", state[0], state[1]);
    for place in 0..k {
        let mut mv = vec![log[1 + place]];
        mv.extend(&log[1 + k + 4 * place..][..4]);
        let mut target = vec![0; STATE_TARGET];
        let answer = (calls.make_move)(&table, &state, &mv, &mut target);
        if let Answer::Moved { words, .. } = answer {
            target.truncate(words as usize);
            state = target;
        }
        writeln!(text, "{place} {} {} {}", answer.number(), state[0], state[1]).unwrap();
        if answer.number() != 0 {
            break;
        }
    }
    text
}
