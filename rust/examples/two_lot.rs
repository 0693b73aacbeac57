//! Log (d) of document 01's two-lot plant, and its serial log.
use coordinator::*;

pub fn table() -> Vec<u32> {
    let value = Value::Received(0);
    TableBuilder::new(2, 1, 1)
        .rule([
            Atom::Consume { port: 0 },
            Atom::Begin,
            Atom::Body { port: 2, value },
            Atom::Compensate { port: 0, value },
        ])
        .rule([Atom::Consume { port: 2 }, Atom::Emit { port: 3, value }])
        .rule([
            Atom::Consume { port: 3 },
            Atom::Consume { port: 3 },
            Atom::Emit { port: 1, value },
            Atom::Emit { port: 1, value: Value::Received(1) },
        ])
        .rule([Atom::Consume { port: 2 }, Atom::Abort])
        .words()
}

pub fn start() -> Vec<u32> {
    StateBuilder::new(1).message(0, 0, 7).message(0, 0, 9).words()
}

pub fn log(moves: &[[u32; MOVE_WORDS]]) -> Vec<u32> {
    moves.iter().fold(LogBuilder::new(), |log, &mv| log.push(mv)).words()
}

fn main() -> Result<(), Refusal> {
    let d = [react(0, &[0]), react(0, &[0]), react(3, &[1]), react(3, &[3]), abort(2), abort(1)];
    let (table, start, log) = (table(), start(), log(&d));
    let (table, start, log) = (Table::new(&table), State::new(&start), Log::new(&log));

    let mut target = [0; STATE_TARGET_WORDS];
    let end = run(table, start, log, &mut target)?;
    println!("end {:?}, {} members ended", end.state.words(), end.members);
    println!("{:?}", end.tally);

    let mut target = vec![0; log_target_words(d.len())];
    let serial = serialize(table, start, log, &mut target)?;
    for mv in serial.moves().expect("the layout of a log") {
        println!("move {mv:x?}");
    }

    let refused = run(table, start, log, &mut []).expect_err("a target of no words");
    println!("{refused}");
    Ok(())
}
