//! The header and the archive as a C compiler sees them.
mod common;

use std::collections::{BTreeMap, BTreeSet};
use std::env;
use std::fs;
use std::path::{Path, PathBuf};
use std::process::Command;

use common::{header_comment, listed};
use coordinator::Refusal;
use harness::answer::order;
use harness::ROOT;

fn archive() -> PathBuf {
    let dir = env::var_os("COORDINATOR_LIB_DIR").map_or(Path::new(ROOT).join("crates/coordinator/out"), PathBuf::from);
    dir.join("libcoordinator.a")
}

fn compiler() -> Command {
    let mut compiler = Command::new(env::var_os("CC").unwrap_or("cc".into()));
    compiler.arg("-I").arg(Path::new(ROOT).join("include"));
    compiler
}

fn succeeds(mut command: Command) -> String {
    let run = command.output().unwrap_or_else(|error| panic!("{command:?}: {error}"));
    let text = String::from_utf8_lossy(&run.stdout).into_owned() + &String::from_utf8_lossy(&run.stderr);
    assert!(run.status.success(), "{command:?}\n{text}");
    text
}

/// Compiles, links and runs the cases under these flags.
fn cases(name: &str, flags: &[&str]) {
    let program = PathBuf::from(env!("CARGO_TARGET_TMPDIR")).join(name);
    let mut compile = compiler();
    compile.args(["-std=c11", "-Wall", "-Wextra", "-Wpedantic", "-Werror"]).args(flags);
    compile.arg(Path::new(ROOT).join("harness/tests/c/cases.c")).arg(archive()).arg("-o").arg(&program);
    assert_eq!(succeeds(compile), "");
    assert_eq!(succeeds(Command::new(program)), "0 failed\n");
}

// Catches a header that does not compile, another order of parameters or fields, an archive that
// needs a library, and a case of 01 that C gets answered differently; plain and optimised.
#[test]
fn cases_a_to_h_through_c() {
    cases("cases", &["-O0"]);
    cases("cases-optimised", &["-O2"]);
}

// Catches a header that C++ does not take, or that needs another one before it.
#[test]
fn the_header_stands_alone() {
    let header = Path::new(ROOT).join("include/coordinator.h");
    for language in [["-xc", "-std=c99"], ["-xc", "-std=c11"], ["-xc++", "-std=c++11"]] {
        let mut compile = compiler();
        compile.args(["-Wall", "-Wextra", "-Wpedantic", "-Werror", "-fsyntax-only"]).args(language).arg(&header);
        assert_eq!(succeeds(compile), "");
    }
}

/// The header's constants.
fn constants() -> BTreeMap<String, u64> {
    let text = file("include/coordinator.h");
    let constant = |line: &str| {
        let mut parts = line.strip_prefix("#define COORDINATOR_")?.split_whitespace();
        let name = parts.next()?;
        Some((name.to_string(), parts.next()?.strip_suffix('u')?.parse().ok()?))
    };
    text.lines().filter_map(constant).collect()
}

fn file(path: &str) -> String {
    fs::read_to_string(Path::new(ROOT).join(path)).unwrap_or_else(|error| panic!("{path}: {error}"))
}

/// C's text without its comments.
fn uncommented(text: &str) -> String {
    let mut parts = text.split("/*");
    let first = parts.next().unwrap_or_default().to_string();
    parts.fold(first, |text, part| text + part.split_once("*/").expect("a comment without an end").1)
}

/// Fields or parameters of C as Rust has them: `const uint32_t *move` as `mv: *const u32`.
fn in_rust(parts: &str, between: char) -> String {
    let part = |part: &str| {
        let (kind, name) = part.split_at(part.rfind([' ', '*']).unwrap() + 1);
        let kind = match kind.trim() {
            "uint32_t" => "u32",
            "uint64_t" => "u64",
            "size_t" => "usize",
            "const uint32_t *" => "*const u32",
            "uint32_t *" => "*mut u32",
            "coordinator_tally *" => "*mut Tally",
            other => panic!("{other} in the header"),
        };
        // `move` is no name in Rust.
        let name = match name {
            "move" => "mv",
            "move_len" => "mv_len",
            other => other,
        };
        format!("{name}: {kind}")
    };
    let parts = parts.split(between).map(str::trim).filter(|part| !part.is_empty());
    parts.map(part).collect::<Vec<_>>().join(", ")
}

/// `preview_answer` as `PreviewAnswer`.
fn camel(name: &str) -> String {
    name.split('_').map(|word| word[..1].to_uppercase() + &word[1..]).collect()
}

/// The structs and calls that the header declares, in the words of Rust.
fn declared_in_c() -> BTreeSet<String> {
    let header = uncommented(&file("include/coordinator.h"));
    let structs = header.split("typedef struct coordinator_").skip(1).map(|rest| {
        let (name, rest) = rest.split_once(" {").unwrap();
        format!("{} {{ {} }}", camel(name), in_rust(rest.split_once('}').unwrap().0, ';'))
    });
    let calls = header.split("\ncoordinator_").skip(1).map(|rest| {
        let (call, parameters) = rest.split_once(");").unwrap().0.split_once('(').unwrap();
        let (answer, name) = call.split_once(" coordinator_").unwrap();
        format!("{name}({}) -> {}", in_rust(parameters, ','), camel(answer))
    });
    structs.chain(calls).collect()
}

/// Rust's text without its comments.
fn unexplained(text: &str) -> String {
    text.lines().filter(|line| !line.trim_start().starts_with("//")).map(|line| format!("{line}\n")).collect()
}

/// The structs and calls that the crate declares. A tally is lent to the archive as callers get it.
fn declared_in_rust() -> BTreeSet<String> {
    let boundary = unexplained(&[file("rust/src/boundary.rs"), file("rust/src/ran.rs")].concat());
    let listed = |parts: &str| {
        let parts = parts.split(',').map(|part| part.trim().trim_start_matches("pub ")).filter(|part| !part.is_empty());
        parts.collect::<Vec<_>>().join(", ")
    };
    let structs = boundary.split("#[repr(C)]\npub struct ").skip(1).map(|rest| {
        let (name, rest) = rest.split_once(" {").unwrap();
        format!("{name} {{ {} }}", listed(rest.split_once('}').unwrap().0))
    });
    let calls = boundary.split("pub fn coordinator_").skip(1).map(|rest| {
        let (call, answer) = rest.split_once(';').unwrap().0.split_once(") -> ").unwrap();
        let (name, parameters) = call.split_once('(').unwrap();
        format!("{name}({}) -> {answer}", listed(parameters))
    });
    structs.chain(calls).collect()
}

// Catches a field or a parameter that the header and the Rust crate have in another order or of another
// type, and a call that one of them lacks.
#[test]
fn header_and_crate_declare_the_same() {
    let (c, rust) = (declared_in_c(), declared_in_rust());
    let preview = "preview(table: *const u32, table_len: usize, state: *const u32, state_len: usize, \
        mv: *const u32, mv_len: usize) -> PreviewAnswer";
    let answer = "Answer { number: u32, words: u32, place: u32, own: u32, members: u32 }";
    let preview_answer = "PreviewAnswer { number: u32, entries: u32, next: u32, id: u32, members: u32 }";
    let tally = "Tally { moves: u32, begun: u32, committed: u32, aborted: u32 }";
    let run = "run(table: *const u32, table_len: usize, state: *const u32, state_len: usize, \
        log: *const u32, log_len: usize, tally: *mut Tally, target: *mut u32, target_len: usize) -> Answer";
    let unattended = "Unattended { number: u32, words: u32, moves: u32, still: u32 }";
    let run_unattended = "run_unattended(table: *const u32, table_len: usize, state: *const u32, state_len: usize, \
        budget: u32, target: *mut u32, target_len: usize) -> Unattended";
    for one in [answer, preview_answer, preview, tally, run, unattended, run_unattended] {
        assert!(c.contains(one), "{one} is not in {c:#?}");
    }
    assert_eq!(c, rust);
    // No other call takes a tally.
    assert_eq!(c.iter().filter(|one| one.contains("Tally")).count(), 2);
}

/// `NoMoreIds` as `NO_MORE_IDS`.
fn upper(name: &str) -> String {
    let word = |at: usize, letter: char| {
        if at > 0 && letter.is_uppercase() {
            format!("_{letter}")
        } else {
            letter.to_string()
        }
    };
    name.char_indices().map(|(at, letter)| word(at, letter)).collect::<String>().to_uppercase()
}

// Catches an order of refusals in the header that is not 01's or 02's.
#[test]
fn the_header_gives_the_order_of_refusals() {
    let calls: [(&str, &[u32]); 8] = [
        ("check_table", &order::CHECK_TABLE),
        ("check_state", &order::CHECK_STATE),
        ("move", &order::MOVE),
        ("preview", &order::PREVIEW),
        ("run", &order::RUN),
        ("serialize", &order::SERIALIZE),
        ("list_moves", &order::LIST_MOVES),
        ("run_unattended", &order::RUN_UNATTENDED),
    ];
    for (name, order) in calls {
        let comment = header_comment(name);
        assert!(comment.contains(&format!("Refusals: {}. ", listed(order))), "{name}: {comment}");
    }
}

// Catches a number, limit or name that the header and the Rust crate give differently.
#[test]
fn header_and_crate_agree() {
    let mut constants = constants();
    let sizes = [
        ("MAX_PORTS", coordinator::MAX_PORTS),
        ("MAX_RULES", coordinator::MAX_RULES),
        ("MAX_ATOMS", coordinator::MAX_ATOMS),
        ("MAX_RULE_ATOMS", coordinator::MAX_RULE_ATOMS),
        ("MAX_CONSUMES", coordinator::MAX_CONSUMES),
        ("MAX_ENTRIES", coordinator::MAX_ENTRIES),
        ("MAX_NEXT", coordinator::MAX_NEXT as usize),
        ("MAX_MOVES", coordinator::MAX_MOVES),
        ("MAX_PAGE_MOVES", coordinator::MAX_PAGE_MOVES),
        ("MOVE_WORDS", coordinator::MOVE_WORDS),
        ("STATE_TARGET_WORDS", coordinator::STATE_TARGET_WORDS),
        ("STACK_BYTES", 256 << 10),
        ("ABI", 3),
        ("ACCEPTED", 0),
        ("MOVE_REFUSED", Refusal::MoveRefused { place: 0, own: 5 }.number() as usize),
    ];
    for (name, value) in sizes {
        assert_eq!(constants.remove(name), Some(value as u64), "{name}");
    }
    for number in (1..=19).filter(|&number| number != 16) {
        let name = upper(&format!("{:?}", Refusal::from_number(number)));
        assert_eq!(constants.remove(&name), Some(u64::from(number)), "{name}");
    }
    assert!(constants.is_empty(), "the crate lacks {constants:?}");
}
