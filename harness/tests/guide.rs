//! The pages say what to run and what it prints, and show words, figures and programs: all of it is
//! tried and compared as it stands. A page's blocks are of these kinds, and no others:
//!
//! - `sh`: run from the repository's folder; the `text` block that follows is what it prints.
//! - `sh not-run`: takes minutes or changes files, so only what it names is looked for.
//! - `text LABEL`: what `generated` makes under this label.
//! - `c PATH`, `rust PATH`: the file at this path; a command on the page compiles and runs it.
mod common;

use std::collections::BTreeMap;
use std::fs;
use std::os::unix::fs::PermissionsExt;
use std::path::Path;
use std::process::Command;

use common::demand3::Demand3;
use common::{after, serialize, shrinking, Alone, Asked, MAKE_MOVE};
use common::{after_a, check_state, check_table, gives, make_move, mark_owners, on_tally, on_target, preview, run};
use harness::answer::{order, Answer, Preview, Unattended};
use harness::markdown::{blocks, links, prose, rows, Block};
use harness::two_lot::{self, case_a, case_c, case_d, lists_a, serial_d};
use harness::words::{log_words, role, Atom, Entry, Move, State, Table};
use harness::{apart, ROOT};

const GUIDE: &str = "docs/GUIDE.md";
const PAGES: [&str; 5] = ["README.md", GUIDE, "examples/README.md", "harness/README.md", "rust/README.md"];

fn file(path: &str) -> String {
    fs::read_to_string(Path::new(ROOT).join(path)).unwrap_or_else(|error| panic!("{path}: {error}"))
}

// Catches a command that does not run, or that prints something else than the page says. In one
// test, so that two commands never build the same thing at once.
#[test]
fn commands_print_what_follows_them() {
    for page in PAGES {
        let text = file(page);
        let blocks = blocks(&text);
        for (place, block) in blocks.iter().enumerate().filter(|(_, block)| (block.language, block.label) == ("sh", ""))
        {
            let shown = blocks[place + 1].text;
            let mut shell = Command::new("bash");
            let run = shell.args(["-euo", "pipefail", "-c", block.text]).current_dir(ROOT).output().unwrap();
            let said = String::from_utf8_lossy(&run.stderr);
            assert!(run.status.success(), "{page}:{}: {}{said}", block.line, block.text);
            assert_eq!(String::from_utf8_lossy(&run.stdout), shown, "{page}:{}: {}{said}", block.line, block.text);
        }
    }
}

/// The files that a command names: its first word if that is a path, a manifest, and a binary of it.
fn named(command: &str) -> Vec<String> {
    let words: Vec<&str> = command.split_whitespace().collect();
    let after = |option: &str| words.iter().position(|word| *word == option).map(|place| words[place + 1]);
    let manifest = after("--manifest-path").unwrap_or("harness/Cargo.toml");
    let mut named = vec![if words[0] == "cargo" { manifest.into() } else { words[0].into() }];
    named.extend(after("--bin").map(|bin| manifest.replace("Cargo.toml", &format!("src/bin/{bin}.rs"))));
    named
}

// Catches a command that is only shown and whose file is gone or cannot be run.
#[test]
fn commands_not_run_are_there() {
    for page in PAGES {
        for block in blocks(&file(page)).iter().filter(|block| (block.language, block.label) == ("sh", "not-run")) {
            for path in block.text.lines().flat_map(named) {
                let found = fs::metadata(Path::new(ROOT).join(&path)).unwrap_or_else(|error| panic!("{path}: {error}"));
                let runs = path.ends_with(".toml") || path.ends_with(".rs") || found.permissions().mode() & 0o111 != 0;
                assert!(found.is_file() && runs, "{page}:{}: {path}", block.line);
            }
        }
    }
}

/// How a C program of a page is compiled.
const STRICT: &str = "cc -std=c11 -Wall -Wextra -Wpedantic -Werror";

/// Whether a page's command that is run has these words.
fn runs(blocks: &[Block], words: &str) -> bool {
    blocks.iter().any(|block| (block.language, block.label) == ("sh", "") && block.text.contains(words))
}

// Catches a block that no test holds to anything, and a program in a page that is not the file's or
// that no command compiles and runs.
#[test]
fn every_block_is_held_to_something() {
    let generated = generated();
    for page in PAGES {
        let text = file(page);
        let blocks = blocks(&text);
        let kind = |place: usize| blocks.get(place).map(|block| (block.language, block.label));
        for (place, block) in blocks.iter().enumerate() {
            let at = format!("{page}:{}", block.line);
            match (block.language, block.label) {
                ("sh", "") => assert_eq!(kind(place + 1), Some(("text", "")), "{at}: a command without what it prints"),
                ("sh", "not-run") => {}
                ("text", "") => assert_eq!(kind(place.wrapping_sub(1)), Some(("sh", "")), "{at}: printed by nothing"),
                ("text", label) => assert!(generated.contains_key(label), "{at}: nothing makes {label:?}"),
                ("c", path) if !path.is_empty() => {
                    assert_eq!(block.text, file(path), "{at}");
                    assert!(runs(&blocks, &format!("{STRICT} -Iinclude {path} ")), "{at}: not compiled");
                }
                ("rust", path) if !path.is_empty() => {
                    assert_eq!(block.text, file(path), "{at}");
                    let name = Path::new(path).file_stem().unwrap().to_str().unwrap();
                    assert!(runs(&blocks, &format!("--example {name}\n")), "{at}: not compiled");
                }
                kind => panic!("{at}: a block of kind {kind:?}"),
            }
        }
    }
}

// Catches words, fields or figures in the guide that are not what all implementations say, and a
// step of the plant that the guide leaves out.
#[test]
fn the_guide_shows_true_words() {
    let guide = file(GUIDE);
    let shown = blocks(&guide);
    for (label, text) in generated() {
        let shown: Vec<_> = shown.iter().filter(|block| (block.language, block.label) == ("text", &label)).collect();
        assert_eq!(shown.len(), 1, "{label:?} is not shown once");
        assert_eq!(shown[0].text, text, "{GUIDE}:{}: {label}", shown[0].line);
    }
}

// Catches a word in the guide's running text that no block shows.
#[test]
fn words_between_the_blocks_are_shown_in_one() {
    let guide = file(GUIDE);
    let generated: String = generated().into_values().collect();
    for line in prose(&guide) {
        for word in line.split(|sign: char| !sign.is_ascii_alphanumeric()).filter(|word| word.starts_with("0x")) {
            assert!(generated.contains(word), "{word} in {line:?}");
        }
    }
}

/// What the guide's blocks show, by their labels.
fn generated() -> BTreeMap<String, String> {
    let (table, start) = (two_lot::table(), two_lot::start());
    let mut all = BTreeMap::from([
        ("table".into(), apart::table(&table)),
        ("start".into(), apart::state(&start)),
        ("log a".into(), apart::log(&log_words(&case_a()), None)),
        ("log d".into(), apart::log(&log_words(&case_d()), None)),
        ("lists a".into(), lists()),
        ("page".into(), page()),
        ("previews".into(), previews()),
        ("alone".into(), alone()),
        ("budgets".into(), budgets()),
        ("members".into(), members()),
        ("tallies".into(), tallies()),
        ("run in C".into(), run_in_c()),
        ("abort mark".into(), abort_mark()),
        ("refusals".into(), refusals()),
        ("order".into(), orders()),
    ]);
    for (name, log, from) in [("a", case_a(), 0), ("c", case_c(), 3)] {
        let mut state = start.clone();
        for (place, mv) in log.iter().enumerate() {
            let (answer, after) = make_move(&table, &state, &mv.words());
            assert_eq!(answer.number(), 0);
            state = after;
            if place >= from {
                all.insert(format!("{name} {place}"), apart::one_move(*mv) + &apart::state(&state));
            }
        }
    }
    // Which move each move of the serial log was is found by the origins of its picks.
    let (_, serial) = serialize(&table, &start, &log_words(&case_d()));
    let (table_read, start_read) = (Table::from_words(&table).unwrap(), State::from_words(&start).unwrap());
    let was = Demand3::new(&table_read, &start_read, &case_d()).places(&serial_d()).unwrap();
    all.insert("serial d".into(), apart::log(&serial, Some(&was)));
    for (name, log, end) in [("end d", case_d(), two_lot::END_D), ("end serial d", serial_d(), two_lot::SERIAL_END_D)] {
        let ran = run(&table, &start, &log_words(&log));
        gives(ran, &end);
        all.insert(name.into(), apart::state(&end));
    }
    all
}

/// The enabled moves at the start of (a) and after each of its moves.
fn lists() -> String {
    let list = |(moves, list): (usize, Vec<Move>)| {
        let (page, words) = Asked::new(0, 256).of(&two_lot::table(), &after_a(moves));
        assert_eq!(words, list.iter().flat_map(|mv| mv.words()).collect::<Vec<_>>());
        let when = moves.checked_sub(1).map_or("at the start".into(), |last| format!("after move {last}"));
        format!("{when}: length {}\n{}", page.length, apart::moves(0, &list))
    };
    apart::MOVES_HEAD.to_string() + &lists_a().into_iter().enumerate().map(list).collect::<String>()
}

/// A page from the middle of a list.
fn page() -> String {
    let (first, count) = (1, 2);
    let (page, words) = Asked::new(first, count).of(&two_lot::table(), &after_a(2));
    let (written, length) = (words.len(), page.length);
    assert_eq!(page.answer, Answer::Accepted(written as u32));
    let moves: Vec<Move> = words.chunks_exact(5).map(|mv| Move::from_words(mv).unwrap()).collect();
    let asked = format!("after move 1, first {first}, count {count}: number 0, words {written}, length {length}\n");
    asked + apart::MOVES_HEAD + &apart::moves(first as usize, &moves)
}

/// The preview of each move of (a), and of the cases that are refused.
fn previews() -> String {
    let accepted = case_a().into_iter().zip(two_lot::PREVIEWS_A).enumerate();
    let accepted =
        accepted.map(|(after, (mv, [entries, next, id, members]))| ('a', after, mv, [0, entries, next, id, members]));
    let refused =
        two_lot::refused().map(|refused| (refused.case, refused.after, refused.mv, [refused.number, 0, 0, 0, 0]));
    let line = |(case, moves, mv, figures): (char, usize, Move, [u32; 5])| {
        let (table, state) = (two_lot::table(), after_a(moves));
        let Preview { number, entries, next, id, members } = preview(&table, &state, &mv.words());
        assert_eq!([number, entries, next, id, members], figures, "({case}) after {moves}");
        // Number and members are those of the move, and so are the figures of the state that it leaves.
        let (made, left) = make_move(&table, &state, &mv.words());
        let (entries, next) = left.first_chunk().map_or((0, 0), |&[entries, next]| (entries, next));
        assert_eq!([made.number(), entries, next, id, made.members()], figures);
        apart::preview(case, moves, mv, figures)
    };
    apart::PREVIEWS_HEAD.to_string() + &accepted.chain(refused).map(line).collect::<String>()
}

/// The plant left alone at the start, with the largest budget; the run of its log is that of (a).
fn alone() -> String {
    let (table, start) = (two_lot::table(), two_lot::start());
    let (Unattended { answer, moves, still }, words) = Alone::new(1_024).of(&table, &start);
    assert_eq!(on_tally([&table, &start, &words], [7; 4], 2_050).2, two_lot::TALLY_A);
    gives(run(&table, &start, &words), &two_lot::END_A);
    let (number, written, still) = (answer.number(), answer.words(), u32::from(still));
    format!("budget 1024: number {number}, words {written}, moves {moves}, still {still}\n") + &apart::log(&words, None)
}

/// The plant left alone in some states, with some budgets.
fn budgets() -> String {
    let start = [0, 1, 5, 6, 1_024, 1_025].map(|budget| ("at the start", two_lot::start(), budget));
    let after_c = after(&case_c());
    let others = [
        ("after 4 of (a)", after_a(4), 1_024),
        ("after (a)", after_a(6), 0),
        ("after (a)", after_a(6), 1_024),
        ("after (c)", after_c.clone(), 3),
        ("after (c)", after_c, 4),
    ];
    let line = |(name, state, budget): (&str, Vec<u32>, u32)| {
        let [number, words, moves, still] = Alone::new(budget).of(&two_lot::table(), &state).0.in_c();
        format!("{name:<14}  {budget:>6} {number:>7} {words:>6} {moves:>6} {still:>6}\n")
    };
    let lines: String = start.into_iter().chain(others).map(line).collect();
    String::from("state           budget  number  words  moves  still\n") + &lines
}

/// The members that end with each move of (a), with runs, and with a run that is refused after an end.
fn members() -> String {
    let (table, start) = (two_lot::table(), two_lot::start());
    let line = |case: &str, answer: Answer, does: &str| {
        let (number, members) = (answer.number(), answer.members());
        let line = format!("{case:<10} {number:>7}  {members:>7}  {does}");
        format!("{}\n", line.trim_end())
    };
    let mut text = String::from("case        number  members\n");
    for (place, mv) in case_a().into_iter().enumerate() {
        let (answer, _) = make_move(&table, &after_a(place), &mv.words());
        text += &line(&format!("(a) {place}"), answer, &apart::does(mv));
    }
    let twice = [&case_a()[..], &case_a()[5..]].concat();
    let runs = [("run (a)", case_a()), ("run (d)", case_d()), ("serial (d)", serial_d()), ("(a) and 5", twice)];
    for (case, log) in runs {
        text += &line(case, run(&table, &start, &log_words(&log)).0, "");
    }
    text
}

/// The tallies of runs, with the member marks before and after them.
fn tallies() -> String {
    let (table, start) = (two_lot::table(), two_lot::start());
    let twice = [&case_a()[..], &case_a()[5..]].concat();
    let runs = [
        ("(a)", start.clone(), case_a()),
        ("(c)", start.clone(), case_c()),
        ("(d)", start.clone(), case_d()),
        ("serial (d)", start.clone(), serial_d()),
        ("(a) from 2", after_a(2), case_a()[2..].to_vec()),
        ("no moves", start.clone(), vec![]),
        ("(a) and 5", start, twice),
    ];
    let marks = |state: &[u32]| mark_owners(state).count() as u32;
    let line = |(name, state, log): (&str, Vec<u32>, Vec<Move>)| {
        let (answer, words, tally) = on_tally([&table, &state, &log_words(&log)], [7; 4], 2_050);
        let (number, at_start, [moves, begun, committed, aborted]) = (answer.number(), marks(&state), tally);
        let at_end = if number == 0 { marks(&words).to_string() } else { "-".into() };
        let counted = format!("{at_start:>6} {moves:>6} {begun:>6} {committed:>10} {aborted:>8}");
        format!("{name:<10} {number:>7} {counted} {at_end:>4}\n")
    };
    String::from("run         number  start  moves  begun  committed  aborted  end\n")
        + &runs.into_iter().map(line).collect::<String>()
}

/// The tally and the run as the header declares them.
fn run_in_c() -> String {
    let header = file("include/coordinator.h");
    let from = |begin: &str, end: &str| {
        let rest = &header[header.find(begin).expect(begin)..];
        rest[..rest.find(end).expect(end) + end.len()].to_string()
    };
    let tally = from("typedef struct coordinator_tally {", "} coordinator_tally;\n");
    tally + "\n" + &from("coordinator_answer coordinator_run(", ");\n")
}

/// A transaction with an abort mark: a merge with it is refused, and the list has its abort alone.
fn abort_mark() -> String {
    let (table, state, mv) = (two_lot::table(), two_lot::aborting(), two_lot::merge_with_aborting());
    // The state after four moves of (c), with one message more.
    let (_, words) = run(&table, &two_lot::start(), &log_words(&case_c()[..4]));
    let mut after_c = State::from_words(&words).unwrap();
    after_c.entries.push(Entry::message(2, 3, 9));
    assert_eq!(state, after_c.words());
    let (answer, _) = make_move(&table, &state, &mv.words());
    let (page, words) = Asked::new(0, 256).of(&table, &state);
    let list: Vec<Move> = words.chunks_exact(5).map(|mv| Move::from_words(mv).unwrap()).collect();
    let refused = format!("refused with {}\nlist_moves: length {}\n", answer.number(), page.length);
    apart::state(&state) + &apart::one_move(mv) + &refused + apart::MOVES_HEAD + &apart::moves(0, &list)
}

fn orders() -> String {
    let calls: [(&str, &[u32]); 9] = [
        ("check_table", &order::CHECK_TABLE),
        ("check_state", &order::CHECK_STATE),
        ("move", &order::MOVE),
        ("preview", &order::PREVIEW),
        ("run", &order::RUN),
        ("serialize", &order::SERIALIZE),
        ("list_moves", &order::LIST_MOVES),
        ("run_unattended", &order::RUN_UNATTENDED),
        ("program", &order::PROGRAM),
    ];
    calls.map(|(name, order)| format!("{name:<14}  {}\n", common::listed(order))).concat()
}

/// A call of each number, made and answered so. They are on the two-lot plant but for 14 and 17.
fn refusals() -> String {
    let (table, start) = (two_lot::table(), two_lot::start());
    let with = |words: &[u32], at: usize, word: u32| {
        let mut words = words.to_vec();
        words[at] = word;
        words
    };
    let moved = |state: &[u32], mv: Move| make_move(&table, state, &mv.words()).0;
    let log_a = log_words(&case_a());
    let [b, e, _, g] = two_lot::refused();
    let case = |case: two_lot::Refused| moved(&after_a(case.after), case.mv);
    let full = State { next: 1, entries: vec![Entry::message(0, 0, 7); 1_024] }.words();
    let mut begin_emits = Table::from_words(&table).unwrap();
    begin_emits.rules.push(vec![Atom::consume(1), Atom::constant(role::EMIT, 1, 4), Atom::BEGIN]);
    let (shrinking, large, outgrown) = shrinking(1_024);
    let begin = Move::react(0, &[0]);
    let calls = [
        ("check_table", "the table", check_table(&table)),
        ("check_table", "the table without its last word", check_table(&table[..28])),
        ("check_table", "role 6 in the last atom", check_table(&with(&table, 28, 0x6000_0000))),
        ("check_state", "N = 0", check_state(&table, &with(&start, 1, 0))),
        ("check_state", "an entry owned by 1, and no member mark of 1", check_state(&table, &[1, 2, 1, 7])),
        ("move", "react by rule 4, where R = 4", moved(&start, Move::react(4, &[0]))),
        ("move", "a target of 2049 words", on_target(MAKE_MOVE, [&table, &start, &begin.words()], 2_049).0),
        ("move", "(e): rule 2 with picks 4 4, after 4 moves of (a)", case(e)),
        (
            "move",
            "rule 0 on a message inside transaction 1",
            moved(&[2, 2, 1, 1, 0x0300_0001, 7], Move::react(0, &[1])),
        ),
        ("move", "(g): commit 3, after 2 moves of (a)", case(g)),
        ("move", "(b): commit 1, after 4 moves of (a)", case(b)),
        ("move", "a begin with N = 65536", moved(&[1, 65_536, 0, 7], begin)),
        ("move", "a begin on 1024 entries", moved(&full, begin)),
        ("run", "log (a) without its last word", run(&table, &start, &log_a[..30]).0),
        ("serialize", "a fifth rule that begins and emits", serialize(&begin_emits.words(), &start, &log_a).0),
        ("serialize", "log (c), which leaves transaction 1 open", serialize(&table, &start, &log_words(&case_c())).0),
        ("run", "(b) as a log", run(&table, &start, &log_words(&b.log())).0),
        (
            "serialize",
            "on 1024 entries: a begin that takes 4, a move that adds 1, the commit",
            serialize(&shrinking.words(), &large.words(), &log_words(&outgrown)).0,
        ),
        (
            "move",
            "rule 2 with picks 4 6, where transaction 2 has an abort mark",
            moved(&two_lot::aborting(), two_lot::merge_with_aborting()),
        ),
        ("run_unattended", "a budget of 1025", Alone::new(1_025).of(&table, &start).0.answer),
    ];
    let line = |(number, (call, what, answer)): (usize, (&str, &str, Answer))| {
        assert_eq!(answer.number() as usize, number, "{call}: {what}");
        let more = match answer {
            Answer::MoveRefused { place, own } => format!(": place {place}, own number {own}"),
            _ => String::new(),
        };
        format!("{number:>2}  {call:<14}  {what}{more}\n")
    };
    calls.into_iter().enumerate().map(line).collect()
}

// Catches a number that the guide leaves out or calls by another name than the header.
#[test]
fn the_guide_has_every_number() {
    let (guide, header) = (file(GUIDE), file("include/coordinator.h"));
    let rows = rows(&prose(&guide), "| number | name | it means | look at |");
    assert_eq!(rows.len(), 20);
    for (number, row) in rows.iter().enumerate() {
        let name = row[1].trim_matches('`');
        assert_eq!(row[0], number.to_string());
        assert!(header.contains(&format!("#define COORDINATOR_{name} {number}u ")), "{name}");
        assert!(row[2..].iter().all(|cell| !cell.is_empty()) && row.len() == 4, "{row:?}");
    }
}

// Catches a guide for another header than this: the number of its ABI, and the figures of a tally in their order.
#[test]
fn the_guide_goes_with_the_header() {
    let (guide, header) = (file(GUIDE), file("include/coordinator.h"));
    let (_, rest) = header.split_once("#define COORDINATOR_ABI ").unwrap();
    let (number, _) = rest.split_once("u\n").unwrap();
    assert!(guide.contains(&format!("another `COORDINATOR_ABI`, which is {number} here.")), "{number}");
    let declared = run_in_c();
    let fields = declared.lines().filter_map(|line| line.strip_prefix("    uint32_t ")?.split(';').next());
    let rows = rows(&prose(&guide), "| figure | 02's words | what it counts |");
    assert_eq!(rows.len(), 4);
    assert!(rows.iter().map(|row| row[0].trim_matches('`').to_string()).eq(fields.map(str::to_string)), "{rows:?}");
}

/// The words of an array in a C program.
fn c_array(program: &str, name: &str) -> Vec<u32> {
    let (_, rest) = program.split_once(&format!("uint32_t {name}[] = {{")).unwrap_or_else(|| panic!("no array {name}"));
    let (words, _) = rest.split_once('}').unwrap();
    let word = |word: &str| match word.trim().strip_prefix("0x") {
        Some(digits) => u32::from_str_radix(digits, 16).unwrap(),
        None => word.trim().parse().unwrap(),
    };
    words.trim_end().trim_end_matches(',').split(',').map(word).collect()
}

// Catches a digit in the C program that is not 01's and that its output does not show.
#[test]
fn the_c_program_has_the_words_of_01() {
    let program = file("examples/two_lot.c");
    let [b, ..] = two_lot::refused();
    assert_eq!(c_array(&program, "table"), two_lot::table());
    assert_eq!(c_array(&program, "start"), two_lot::start());
    assert_eq!(c_array(&program, "log_a"), log_words(&case_a()));
    assert_eq!(c_array(&program, "log_b"), log_words(&b.log()));
    assert_eq!(c_array(&program, "begin"), case_a()[0].words());
    assert_eq!(c_array(&program, "commit"), case_a()[5].words());
}

// Catches a link to a file that is not there.
#[test]
fn links_lead_somewhere() {
    for page in PAGES {
        let text = file(page);
        let folder = Path::new(ROOT).join(page).parent().unwrap().to_path_buf();
        for link in prose(&text).into_iter().flat_map(links).filter(|link| !link.starts_with('#')) {
            assert!(folder.join(link).exists(), "{page}: {link}");
        }
    }
}
