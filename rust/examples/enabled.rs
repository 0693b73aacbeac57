//! The enabled moves of document 01's two-lot plant. The first is made, until there are none.
use coordinator::*;

#[allow(dead_code)]
#[path = "two_lot.rs"]
mod plant;

fn main() -> Result<(), Refusal> {
    let table = plant::table();
    let table = Table::new(&table);
    let mut state = plant::start();
    loop {
        let mut moves = enabled_moves(table, State::new(&state))?;
        print!("{} enabled:", moves.length());
        moves.clone().for_each(|mv| print!(" {mv:x?}"));
        println!();
        let Some(first) = moves.next() else { return Ok(()) };
        let mut target = [0; STATE_TARGET_WORDS];
        state = make_move(table, State::new(&state), Move::new(&first), &mut target)?.state.words().to_vec();
    }
}
