//! The serial log by the paper's colouring (end of section 7): walk the run backward, give each
//! commit or abort a colour, and paint with it every scope and reduction that leads to it.
use std::collections::BTreeMap;

use super::definitions::Definitions;
use super::ordered::{Made, Ordered};
use crate::words::{act, Move};

/// The colour of each move: the place of the end of its transaction. Global reactions without
/// begin have none.
pub fn colours(history: &[Made]) -> Vec<Option<usize>> {
    let mut scopes: BTreeMap<u32, usize> = BTreeMap::new();
    let mut painted = vec![None; history.len()];
    for (place, made) in history.iter().enumerate().rev() {
        match made {
            Made::Ended { id, .. } => {
                scopes.insert(*id, place);
                painted[place] = Some(place);
            }
            Made::Fired { fired, .. } => {
                let Some(left_in) = fired.left_in else { continue };
                let colour = scopes.remove(&left_in).expect("every transaction ends");
                scopes.extend(fired.scopes.iter().map(|&scope| (scope, colour)));
                painted[place] = Some(colour);
            }
        }
    }
    assert!(scopes.is_empty(), "a scope is open at the start");
    painted
}

/// The places of the first log in serial order.
pub fn order(history: &[Made]) -> Vec<usize> {
    let painted = colours(history);
    let mut order = Vec::new();
    for (place, made) in history.iter().enumerate() {
        match made {
            Made::Ended { .. } => order.extend((0..=place).filter(|&other| painted[other] == Some(place))),
            Made::Fired { .. } if painted[place].is_none() => order.push(place),
            Made::Fired { .. } => {}
        }
    }
    order
}

/// The moves again in serial order, on the molecules of the same names; `None` if some state
/// holds more than `ceiling` entries.
pub fn serial(definitions: &Definitions, mut ordered: Ordered, history: &[Made], ceiling: usize) -> Option<Vec<Move>> {
    let mut serial = Vec::new();
    let mut begun: Vec<u32> = Vec::new();
    for place in order(history) {
        match &history[place] {
            Made::Fired { rule, names, .. } => {
                let place_of =
                    |name| ordered.order.iter().position(|other| other == name).expect("the same molecule") as u32;
                let picks: Vec<u32> = names.iter().map(place_of).collect();
                serial.push(Move::react(*rule as u32, &picks));
                begun.extend(ordered.fire(definitions, *rule, names.clone(), place).expect("fires again").begun());
            }
            Made::Ended { kind, .. } => {
                // The smallest id that the begins of this block now got.
                let id = begun.drain(..).min().expect("a begin in the block");
                serial.push(if *kind == act::COMMIT { Move::commit(id) } else { Move::abort(id) });
                ordered.end(*kind, id).expect("ends again");
            }
        }
        if ordered.order.len() > ceiling {
            return None;
        }
    }
    Some(serial)
}
