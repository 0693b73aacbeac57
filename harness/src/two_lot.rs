//! 01's two-lot plant and its cases, digit by digit. Tests cite these and write none of them again.
use crate::answer::Tally;
use crate::words::Move;

pub fn table() -> Vec<u32> {
    let mut words = vec![2, 1, 1, 4, 12];
    words.extend([0, 0, 0, 0, 1, 1, 2, 2, 2, 2, 3, 3]);
    words.extend([0x0000_0000, 0x2000_0000, 0x3102_0000, 0x4100_0000]);
    words.extend([0x0002_0000, 0x1103_0000]);
    words.extend([0x0003_0000, 0x0003_0000, 0x1101_0000, 0x1101_0001]);
    words.extend([0x0002_0000, 0x5000_0000]);
    words
}

pub fn start() -> Vec<u32> {
    vec![2, 1, 0, 0, 7, 9]
}

pub fn case_a() -> Vec<Move> {
    vec![
        Move::react(0, &[0]),
        Move::react(0, &[0]),
        Move::react(1, &[1]),
        Move::react(1, &[3]),
        Move::react(2, &[4, 5]),
        Move::commit(1),
    ]
}

pub const END_A: [u32; 6] = [2, 3, 0, 0, 0x0001_0007, 0x0001_0009];
/// The tally of its run: its commit ends both members.
pub const TALLY_A: Tally = [6, 2, 2, 0];

/// The enabled moves at the start of (a) and after each of its moves, as the definitions list them.
pub fn lists_a() -> [Vec<Move>; 7] {
    [
        vec![Move::react(0, &[0]), Move::react(0, &[1])],
        vec![Move::react(0, &[0]), Move::react(1, &[2]), Move::react(3, &[2])],
        vec![Move::react(1, &[1]), Move::react(1, &[4]), Move::react(3, &[1]), Move::react(3, &[4])],
        vec![Move::react(1, &[3]), Move::react(3, &[3])],
        vec![Move::react(2, &[4, 5]), Move::react(2, &[5, 4])],
        vec![Move::commit(1)],
        vec![],
    ]
}

/// What the preview of each move of (a) says before it is made: entries, next id, the id concerned, and the
/// members that end.
pub const PREVIEWS_A: [[u32; 4]; 6] =
    [[4, 2, 1, 0], [6, 3, 2, 0], [6, 3, 1, 0], [6, 3, 2, 0], [6, 3, 1, 0], [2, 3, 1, 2]];

/// What the program prints for case (a), whole.
pub const LINES_A: &str = "\
moves 6 entries 2 next 1
0 0 4 2
1 0 6 3
2 0 6 3
3 0 6 3
4 0 6 3
5 0 2 3
";

pub fn case_c() -> Vec<Move> {
    let mut log = case_a()[..3].to_vec();
    log.extend([Move::react(3, &[3]), Move::abort(2)]);
    log
}

pub const END_C: [u32; 10] = [4, 3, 1, 1, 0, 1, 0x0300_0001, 0x0100_0007, 0x0000_0009, 0x0003_0007];
/// One of two is aborted, the other still open.
pub const TALLY_C: Tally = [5, 2, 0, 1];

/// A state like that after four moves of (c): transaction 2 has an abort mark, and here also a message on
/// port 3. Transaction 1 has one there too, so that but for the mark rule 2 would merge them.
pub fn aborting() -> Vec<u32> {
    let mut words = vec![7, 3, 1, 1, 2, 2, 1, 2, 2];
    words.extend([0x0300_0001, 0x0100_0007, 0x0300_0002, 0x0100_0009, 0x0003_0007, 0x0200_0000, 0x0003_0009]);
    words
}

/// The merge that is refused there with 18.
pub fn merge_with_aborting() -> Move {
    Move::react(2, &[4, 6])
}

pub fn case_d() -> Vec<Move> {
    vec![
        Move::react(0, &[0]),
        Move::react(0, &[0]),
        Move::react(3, &[1]),
        Move::react(3, &[3]),
        Move::abort(2),
        Move::abort(1),
    ]
}

/// The serial log of case (d).
pub fn serial_d() -> Vec<Move> {
    vec![
        Move::react(0, &[1]),
        Move::react(3, &[2]),
        Move::abort(1),
        Move::react(0, &[0]),
        Move::react(3, &[2]),
        Move::abort(2),
    ]
}

pub const END_D: [u32; 6] = [2, 3, 0, 0, 7, 9];
/// Also that of the serial log.
pub const TALLY_D: Tally = [6, 2, 0, 2];
/// The serial log's end: the same messages in another order.
pub const SERIAL_END_D: [u32; 6] = [2, 3, 0, 0, 9, 7];

/// A case that is refused: so many moves of (a), then this move, refused with this number.
#[derive(Clone, Copy, Debug)]
pub struct Refused {
    pub case: char,
    pub after: usize,
    pub mv: Move,
    pub number: u32,
}

impl Refused {
    /// The moves of (a) and the one that is refused.
    pub fn log(self) -> Vec<Move> {
        let mut log = case_a()[..self.after].to_vec();
        log.push(self.mv);
        log
    }
}

/// Cases (b), (e), (f) and (g).
pub fn refused() -> [Refused; 4] {
    [
        Refused { case: 'b', after: 4, mv: Move::commit(1), number: 10 },
        Refused { case: 'e', after: 4, mv: Move::react(2, &[4, 4]), number: 7 },
        Refused { case: 'f', after: 1, mv: Move::abort(1), number: 10 },
        Refused { case: 'g', after: 2, mv: Move::commit(3), number: 9 },
    ]
}
