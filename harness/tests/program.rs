//! The program of 01: standard input to standard output. What it has to print comes from 01's text
//! or from the model (`harness::program`), never from a program. The proved program and the
//! reference program, made of the plain code, are both asked; of input in pieces only the proved one.
use std::env;
use std::ffi::c_int;
use std::fs::File;
use std::io::{Error, ErrorKind, Read, Write};
use std::os::fd::{FromRawFd, OwnedFd};
use std::path::{Path, PathBuf};
use std::process::{Command, Stdio};
use std::thread;
use std::time::Duration;

use harness::answer::order;
use harness::generate::logs::{accepted, broken_off, closed};
use harness::generate::moves::changed;
use harness::generate::state_faults::StateFault;
use harness::generate::states::{messages, state};
use harness::generate::table_faults::TableFault;
use harness::generate::tables::{table, Shape};
use harness::program::{input, output, MODEL};
use harness::random::Random;
use harness::two_lot::{self, case_a, LINES_A};
use harness::words::{log_words, Entry, Move, State};
use harness::ROOT;

fn proved() -> PathBuf {
    env::var_os("COORDINATE_BIN").map_or(Path::new(ROOT).join("crates/coordinate/out/coordinate"), PathBuf::from)
}

fn programs() -> [PathBuf; 2] {
    [PathBuf::from(env!("CARGO_BIN_EXE_reference")), proved()]
}

/// How the input arrives.
#[derive(Clone, Copy, Debug)]
enum Pipe {
    Whole,
    /// In pieces of up to this many bytes, of which each read gives one.
    Pieces(usize),
    /// The same, with a pause before each, so that the program has to wait.
    Slow(usize),
}

extern "C" {
    fn pipe2(ends: *mut c_int, flags: c_int) -> c_int;
}

impl Pipe {
    /// Its two ends.
    fn open(self) -> (OwnedFd, File) {
        const O_DIRECT: c_int = 0o40_000;
        const O_CLOEXEC: c_int = 0o2_000_000;
        // Linux: what one write put into the pipe is not joined to the next.
        let apart = if let Pipe::Whole = self { 0 } else { O_DIRECT };
        let mut ends = [0; 2];
        assert_eq!(unsafe { pipe2(ends.as_mut_ptr(), O_CLOEXEC | apart) }, 0, "{}", Error::last_os_error());
        let [read, write] = ends.map(|end| unsafe { OwnedFd::from_raw_fd(end) });
        (read, File::from(write))
    }

    fn piece(self, bytes: &[u8]) -> usize {
        match self {
            Pipe::Whole => bytes.len().max(1),
            Pipe::Pieces(piece) | Pipe::Slow(piece) => piece,
        }
    }
}

/// What a command prints when it is fed this input. It may end before it has read all of it.
fn fed(mut command: Command, bytes: &[u8], pipe: Pipe) -> String {
    let (read, mut stdin) = pipe.open();
    command.stdin(read).stdout(Stdio::piped()).stderr(Stdio::piped());
    let mut child = command.spawn().unwrap_or_else(|error| panic!("{command:?}: {error}"));
    // It holds the end for reading: a program that ends early would not be noticed.
    drop(command);
    let mut printed = child.stdout.take().unwrap();
    thread::scope(|scope| {
        scope.spawn(move || {
            for piece in bytes.chunks(pipe.piece(bytes)) {
                if let Pipe::Slow(_) = pipe {
                    thread::sleep(Duration::from_micros(200));
                }
                match stdin.write_all(piece) {
                    Err(error) if error.kind() == ErrorKind::BrokenPipe => return,
                    written => written.unwrap(),
                }
            }
        });
        let mut text = Vec::new();
        printed.read_to_end(&mut text).unwrap();
        let end = child.wait_with_output().unwrap();
        assert!(end.status.code().is_some(), "ended by a signal: {:?}", end.status);
        assert!(end.stderr.is_empty(), "{}", String::from_utf8_lossy(&end.stderr));
        String::from_utf8(text).unwrap()
    })
}

#[track_caller]
fn prints(bytes: &[u8], expected: &str) {
    for program in programs() {
        let printed = fed(Command::new(&program), bytes, Pipe::Whole);
        assert_eq!(printed, expected, "{} on {} bytes", program.display(), bytes.len());
    }
}

/// The reference is not asked: it reads as the standard library does, into room that may be shorter
/// than a piece.
#[track_caller]
fn prints_through(pipe: Pipe, bytes: &[u8], expected: &str) {
    let printed = fed(Command::new(proved()), bytes, pipe);
    assert_eq!(printed, expected, "{} bytes, {pipe:?}", bytes.len());
}

#[track_caller]
fn refuses(bytes: &[u8], number: u32) {
    prints(bytes, &format!("refused {number}\n"));
}

/// Compares with the model; gives what was printed.
#[track_caller]
fn as_the_model(bytes: &[u8]) -> String {
    let expected = output(MODEL, bytes);
    prints(bytes, &expected);
    expected
}

/// The input of the two-lot plant with this log.
fn plant(log: &[Move]) -> Vec<u8> {
    input(&two_lot::table(), &two_lot::start(), &log_words(log))
}

// Catches a wrong figure, a lost or added line or newline: 01 gives this output whole.
#[test]
fn case_a_prints_the_seven_lines() {
    prints(&plant(&case_a()), LINES_A);
    assert_eq!(output(MODEL, &plant(&case_a())), LINES_A, "the model");
}

/// Cuts the input at these places, in bytes: each cut arrives at once, and in pieces of 1 to 5 bytes.
/// Its table, its state and all of it end after so many words.
fn cut_at(bytes: &[u8], [table, state, all]: [usize; 3], cuts: impl Iterator<Item = usize>, lines: &str) {
    assert_eq!(bytes.len(), 4 * all);
    for cut in cuts {
        let expected = match cut / 4 {
            words if words < table => "refused 1\n",
            words if words < state => "refused 3\n",
            words if words < all => "refused 13\n",
            _ => lines,
        };
        prints(&bytes[..cut], expected);
        for piece in 1..=5 {
            prints_through(Pipe::Pieces(piece), &bytes[..cut], expected);
        }
    }
}

// Catches a cut part that is read as whole, or has another part's number, and a last word that is
// lost or made up where the input ends inside one.
#[test]
fn every_cut_of_case_a() {
    let bytes = plant(&case_a());
    cut_at(&bytes, [29, 29 + 6, 29 + 6 + 31], 0..=bytes.len(), LINES_A);
}

/// Table, state and all of the largest input end after so many words.
const FULL: [usize; 3] = [1_029, 1_029 + 2_050, 1_029 + 2_050 + 5_121];

// Catches the same where the parts are full: within 20 bytes of the end of the table, ..
#[test]
fn cuts_of_a_full_table() {
    let (bytes, lines) = largest();
    cut_at(&bytes, FULL, 4 * FULL[0] - 20..=4 * FULL[0] + 20, &lines);
}

// .. of the state, ..
#[test]
fn cuts_of_a_full_state() {
    let (bytes, lines) = largest();
    cut_at(&bytes, FULL, 4 * FULL[1] - 20..=4 * FULL[1] + 20, &lines);
}

// .. and of the whole input.
#[test]
fn cuts_of_a_full_input() {
    let (bytes, lines) = largest();
    cut_at(&bytes, FULL, 4 * FULL[2] - 20..=4 * FULL[2], &lines);
}

// Catches bytes left over that are dropped, also those that make no word, and those that would
// be a second input.
#[test]
fn bytes_left_over() {
    for left in 1..=5 {
        for byte in [0, 10, 255] {
            for log in [case_a(), vec![]] {
                let mut bytes = plant(&log);
                bytes.extend(vec![byte; left]);
                refuses(&bytes, 13);
            }
        }
    }
    let bytes = plant(&case_a());
    refuses(&[&bytes[..], &bytes[..]].concat(), 13);
}

// Catches an empty or a closed input that is waited for, or is taken for a table.
#[test]
fn no_input() {
    refuses(&[], 1);
    for program in programs() {
        let null = Command::new(&program).stdin(Stdio::null()).output().unwrap();
        assert_eq!(null.stdout, b"refused 1\n", "{} on no input", program.display());
        let mut closed = Command::new("sh");
        closed.args(["-c", r#"exec "$0" <&-"#]).arg(&program);
        let closed = closed.output().unwrap();
        assert_eq!(closed.stdout, b"refused 1\n", "{} on a closed input", program.display());
    }
}

// Catches a limit that is not tested before the part is measured by it: each size just over its
// limit and as large as a word, with the rest there and not there.
#[test]
fn sizes_over_their_limits() {
    let (table, start, log) = (two_lot::table(), two_lot::start(), log_words(&case_a()));
    let with = |words: &[u32], at: usize, word: u32| {
        let mut words = words.to_vec();
        words[at] = word;
        words
    };
    for huge in [0x8000_0000, 0x8000_000C, u32::MAX] {
        for (at, over) in [(0, 255), (1, 254), (2, 254), (3, 65), (4, 513)] {
            refuses(&input(&with(&table, at, over), &start, &log), 1);
            refuses(&input(&with(&table, at, huge), &start, &log), 1);
        }
        for (at, over) in [(0, 1_025), (1, 65_537)] {
            refuses(&input(&table, &with(&start, at, over), &log), 3);
            refuses(&input(&table, &with(&start, at, huge), &log), 3);
        }
        refuses(&input(&table, &start, &with(&log, 0, 1_025)), 13);
        refuses(&input(&table, &start, &with(&log, 0, huge)), 13);
    }
    // N = 0.
    refuses(&input(&table, &with(&start, 1, 0), &log), 3);
    // As long as the size over the limit says.
    let mut atoms = with(&table, 4, 513);
    atoms.resize(5 + 2 * 513, 0);
    refuses(&input(&atoms, &start, &log), 1);
    let mut entries = with(&start, 0, 1_025);
    entries.resize(2 + 2 * 1_025, 0);
    refuses(&input(&table, &entries, &log), 3);
    let mut moves = vec![1_025];
    moves.resize(1 + 5 * 1_025, 0);
    refuses(&input(&table, &start, &moves), 13);
}

// Catches parts that are measured before the one in front is checked: every set of the faults
// 1, 2, 3, 4, 13 and bytes left over, the first of which counts.
#[test]
fn the_first_fault_counts() {
    for set in 0..1u32 << 6 {
        let has = |bit: u32| set >> bit & 1 == 1;
        let (mut table, mut start, mut log) = (two_lot::table(), two_lot::start(), log_words(&case_a()));
        if has(1) {
            table[28] ^= 0x0F00_0000;
        }
        if has(0) {
            table[3] = 65;
        }
        if has(3) {
            start[5] = 0x0400_0000;
        }
        if has(2) {
            start[1] = 0;
        }
        if has(4) {
            log[0] = 1_025;
        }
        let mut bytes = input(&table, &start, &log);
        if has(5) {
            bytes.push(0);
        }
        // Bytes left over come last and have the log's number.
        match order::PROGRAM.into_iter().chain([13]).enumerate().find(|&(bit, _)| has(bit as u32)) {
            Some((_, number)) => refuses(&bytes, number),
            None => prints(&bytes, LINES_A),
        }
    }
    let (table, start) = (two_lot::table(), two_lot::start());
    let mut bad = table.clone();
    bad[28] ^= 0x0F00_0000;
    // A table cut short with a bad atom is 1; a bad table before a cut state is 2.
    let bytes = input(&bad, &start, &[]);
    refuses(&bytes[..4 * 29 - 1], 1);
    refuses(&bytes[..4 * 29], 2);
    refuses(&bytes[..4 * 30 + 2], 2);
    // A bad state before a cut or absent log is 4.
    let bytes = input(&table, &[2, 1, 0, 0, 7, 0x0400_0000], &log_words(&case_a()));
    for cut in [35, 36, 65] {
        refuses(&bytes[..4 * cut], 4);
        refuses(&bytes[..4 * cut + 1], 4);
    }
}

// Catches a program that overruns its buffer, reads without end or dies of a pipe: 5 MB of noise,
// and 5 MB behind each part of a right input.
#[test]
fn five_megabytes() {
    let mut random = Random::new(701);
    let noise: Vec<u8> = (0..5_000_000 / 8).flat_map(|_| random.word64().to_le_bytes()).collect();
    as_the_model(&noise);
    let zeros = vec![0; 5_000_000];
    // Five zero sizes are a table; n = 0, N = 0 is no state.
    refuses(&zeros, 3);
    let right = plant(&case_a());
    for (front, number) in [(5 * 4, 1), (29 * 4, 3), (35 * 4, 13), (right.len(), 13)] {
        let mut bytes = right[..front].to_vec();
        if front == 5 * 4 {
            bytes[16..].fill(255);
        }
        bytes.extend(&noise);
        refuses(&bytes, number);
        assert_eq!(output(MODEL, &bytes), format!("refused {number}\n"), "the model");
    }
}

// Catches a read that takes a short one, or none yet, for the end of the input, and a reader that stops
// short of its buffer's end: one byte more than the largest input fills it.
#[test]
fn a_slow_pipe() {
    let bytes = plant(&case_a());
    let (mut longer, _) = largest();
    longer.push(0);
    for piece in 1..=5 {
        prints_through(Pipe::Slow(piece), &bytes, LINES_A);
        prints_through(Pipe::Slow(piece), &bytes[..bytes.len() - 1], "refused 13\n");
        prints_through(Pipe::Pieces(piece), &longer, "refused 13\n");
    }
    prints_through(Pipe::Slow(100), &bytes, LINES_A);
}

// Catches lines for moves that are not there: k = 0 prints only the first line.
#[test]
fn an_empty_log() {
    prints(&plant(&[]), "moves 0 entries 2 next 1\n");
    prints(&input(&[0, 0, 0, 0, 0], &[0, 65_536], &[0]), "moves 0 entries 0 next 65536\n");
}

// Catches 16 in a line, a first line that is left out, a refused move that changes n or N, and a
// program that goes on after it. The numbers are 01's, cases (b), (e), (f), (g) among them.
#[test]
fn nothing_follows_a_refused_move() {
    let first = "moves 2 entries 2 next 1\n";
    for (mv, own) in [
        (Move::react(4, &[0]), 5),
        (Move { kind: 3, number: 1, picks: [0; 4] }, 5),
        (Move::react(0, &[2]), 7),
        (Move::react(1, &[0]), 7),
        (Move::commit(1), 9),
        (Move::abort(65_535), 9),
        (Move::commit(65_536), 5),
    ] {
        prints(&plant(&[mv, Move::react(0, &[0])]), &format!("{first}0 {own} 2 1\n"));
    }
    for (case, last) in two_lot::refused().into_iter().zip(["4 10 6 3", "4 7 6 3", "1 10 4 2", "2 9 6 3"]) {
        let mut log = case.log();
        log.push(case_a()[0]);
        let lines: Vec<&str> = LINES_A.split_inclusive('\n').collect();
        let before = lines[1..=case.after].concat();
        prints(&plant(&log), &format!("moves {} entries 2 next 1\n{before}{last}\n", log.len()));
    }
    // A message still inside a transaction: 8. N = 65,536: 11. A full state: 12. An abort mark: 18.
    let table = two_lot::table();
    let inside = [2, 2, 1, 1, 0x0300_0001, 7];
    prints(&input(&table, &inside, &log_words(&[Move::react(0, &[1])])), "moves 1 entries 2 next 2\n0 8 2 2\n");
    prints(
        &input(&table, &[1, 65_536, 0, 7], &log_words(&case_a()[..1])),
        "moves 1 entries 1 next 65536\n0 11 1 65536\n",
    );
    let full = State { next: 1, entries: vec![Entry::message(0, 0, 7); 1_024] };
    prints(&input(&table, &full.words(), &log_words(&case_a()[..1])), "moves 1 entries 1024 next 1\n0 12 1024 1\n");
    let log = log_words(&[two_lot::merge_with_aborting(), Move::abort(2)]);
    prints(&input(&table, &two_lot::aborting(), &log), "moves 2 entries 7 next 3\n0 18 7 3\n");
}

// Catches n and N that are not those after the move: case (c) ends with a transaction open.
#[test]
fn case_c_line_by_line() {
    prints(&plant(&two_lot::case_c()), "moves 5 entries 2 next 1\n0 0 4 2\n1 0 6 3\n2 0 6 3\n3 0 6 3\n4 0 4 3\n");
}

/// The largest input, 512 atoms, 1,024 entries and 1,024 moves, and the lines for it.
fn largest() -> (Vec<u8>, String) {
    let mut table = vec![256, 0, 0, 64, 512];
    table.extend((0..64).flat_map(|rule| [rule; 8]));
    // Four consumes and four emits on port 0: a constant, and values received.
    table.extend((0..64).flat_map(|rule| [0, 0, 0, 0, 0x1000_0000 | rule, 0x1100_0000, 0x1100_0002, 0x1100_0003]));
    assert_eq!(table.len(), 5 + 1_024);
    let mut start = vec![1_024, 65_536];
    start.extend(vec![0; 2_048]);
    let mut random = Random::new(702);
    let log: Vec<Move> = (0..1_024)
        .map(|_| {
            let first = random.below(1_021);
            Move::react(random.below(64), &[first, first + 3, first + 1, first + 2])
        })
        .collect();
    let bytes = input(&table, &start, &log_words(&log));
    let mut lines = "moves 1024 entries 1024 next 65536\n".to_string();
    lines.extend((0..1_024).map(|place| format!("{place} 0 1024 65536\n")));
    assert_eq!(bytes.len(), 4 * (5 + 1_024 + 2 + 2_048 + 1 + 5_120));
    (bytes, lines)
}

// Catches figures that only the largest input shows.
#[test]
fn the_largest_input() {
    let (bytes, lines) = largest();
    prints(&bytes, &lines);
    refuses(&[&bytes[..], &[0]].concat(), 13);
}

// Catches any other difference: random tables, states and logs, right ones and ones with a move
// changed, one in a transaction with an abort mark, a planted fault, a changed or lost word, or bytes behind.
#[test]
fn random_inputs() {
    let mut random = Random::new(703);
    let mut seen = [0; 19];
    let (mut whole, mut broken) = (0, 0);
    for round in 0..900 {
        let table = table(&mut random, [Shape::Small, Shape::Closable, Shape::Any][round % 3]);
        let most = random.pick(&[3, 30, 200]);
        let start = state(&mut random, &table, most, true);
        let moves = random.pick(&[0, 3, 20]);
        let mut log = accepted(&mut random, &table, &start, moves);
        if round % 4 == 1 {
            let other = Move::from_words(&changed(&mut random, &table, &start)).unwrap();
            let at = random.index(log.len() + 1);
            log.insert(at, other);
        }
        if round % 8 == 4 {
            log = broken_off(&mut random, &table, &start, 20).map_or(log, |(broken, _)| broken);
        }
        let mut parts = [table.words(), start.words(), log_words(&log)];
        match round % 8 {
            2 => {
                let fault = random.pick(TableFault::ALL);
                parts[0] = fault.plant(&mut random, &table).unwrap_or(table.words());
            }
            6 => {
                let fault = random.pick(StateFault::ALL);
                parts[1] = fault.plant(&mut random, &table, &start).unwrap_or(start.words());
            }
            3 => {
                let part = random.index(3);
                let at = random.index(parts[part].len());
                parts[part][at] = random.edge_word();
            }
            _ => {}
        }
        let mut bytes = input(&parts[0], &parts[1], &parts[2]);
        match round % 16 {
            7 => bytes.truncate(random.index(bytes.len() + 1)),
            15 => bytes.extend(vec![0; random.between(1, 9) as usize]),
            _ => {}
        }
        let text = as_the_model(&bytes);
        let last: Vec<&str> = text.lines().last().unwrap().split(' ').collect();
        match (text.starts_with("refused"), last[0]) {
            (true, _) => seen[last[1].parse::<usize>().unwrap()] += 1,
            (false, "moves") => {}
            (false, _) => {
                let own: usize = last[1].parse().unwrap();
                seen[own] += 1;
                whole += usize::from(own == 0);
                broken += usize::from(own != 0);
            }
        }
    }
    for number in [1, 2, 3, 4, 5, 7, 9, 10, 13, 18] {
        assert!(seen[number] > 0, "{number}: {seen:?}");
    }
    assert!(whole > 150 && broken > 60, "{whole} {broken}");
}

// Catches a fault of long logs: up to 1,024 moves on up to 1,024 entries.
#[test]
fn long_random_logs() {
    let mut random = Random::new(704);
    let mut longest = 0;
    for round in 0..6 {
        let table = table(&mut random, Shape::Closable);
        let n = random.pick(&[50, 300, 1_000]);
        let start = messages(&mut random, &table, n);
        let log = if round % 2 == 0 {
            accepted(&mut random, &table, &start, 1_024)
        } else {
            closed(&mut random, &table, &start, 1_024)
        };
        longest = longest.max(log.len());
        as_the_model(&input(&table.words(), &start.words(), &log_words(&log)));
    }
    assert!(longest > 500, "{longest}");
}
