//! Document 01's two-lot plant runs alone: in one go, and in shifts of four moves. The log of each shift is run for the
//! state that the next one starts from, and for its tally.
use coordinator::*;

#[allow(dead_code)]
#[path = "two_lot.rs"]
mod plant;

/// The shifts from the start until no move is enabled.
fn shifts(budget: u32) -> Result<(), Refusal> {
    let table = plant::table();
    let table = Table::new(&table);
    let mut state = plant::start();
    loop {
        let mut target = [0; log_target_words(MAX_MOVES)];
        let alone = run_unattended(table, State::new(&state), budget, &mut target)?;
        println!("budget {budget}: {} moves, {}", alone.moves, if alone.still { "still" } else { "spent" });
        for mv in alone.log.moves().expect("the layout of a log") {
            println!("move {mv:x?}");
        }
        let mut target = [0; STATE_TARGET_WORDS];
        let end = run(table, State::new(&state), alone.log, &mut target)?;
        println!("end {:x?}, {:?}", end.state.words(), end.tally);
        if alone.still {
            return Ok(());
        }
        state = end.state.words().to_vec();
    }
}

fn main() -> Result<(), Refusal> {
    shifts(MAX_MOVES as u32)?;
    shifts(4)
}
