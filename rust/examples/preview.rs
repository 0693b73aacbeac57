//! Log (a) of document 01's two-lot plant, with its commit tried one move too early as in case (b). Each
//! move is previewed, and made if it is not refused.
use coordinator::*;

#[allow(dead_code)]
#[path = "two_lot.rs"]
mod plant;

fn main() -> Result<(), Refusal> {
    let moves =
        [react(0, &[0]), react(0, &[0]), react(1, &[1]), react(1, &[3]), commit(1), react(2, &[4, 5]), commit(1)];
    let table = plant::table();
    let table = Table::new(&table);
    let mut state = plant::start();
    for mv in moves {
        match preview(table, State::new(&state), Move::new(&mv)) {
            Err(refusal) => println!("{mv:x?}: {refusal}"),
            Ok(Preview { entries, next, id, members, .. }) => {
                println!("{mv:x?}: {entries} entries, next id {next}, transaction {id}, ends {members} members");
                let mut target = [0; STATE_TARGET_WORDS];
                state = make_move(table, State::new(&state), Move::new(&mv), &mut target)?.state.words().to_vec();
            }
        }
    }
    Ok(())
}
