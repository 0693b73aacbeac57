//! The benchmark and the count on small sizes; nothing is timed here.
use std::process::Command;

use harness::generate::plants::PLANTS;
use harness::program::{output, MODEL};

// Catches a benchmark that no longer runs, leaves out a call, or whose inputs the library and the
// plain code answer differently: it compares before it measures.
#[test]
fn the_benchmark_runs() {
    let run = Command::new(env!("CARGO_BIN_EXE_bench")).arg("--smoke").output().unwrap();
    let printed = String::from_utf8(run.stdout).unwrap();
    assert!(run.status.success(), "{printed}{}", String::from_utf8_lossy(&run.stderr));
    for name in ["check_table", "check_state", "move", "preview", "run", "serialize", "list_moves", "run_unattended"] {
        assert!(printed.contains(&format!("| {name} ")), "{name} in\n{printed}");
    }
    assert!(printed.contains("| / move |"), "no preview beside its move in\n{printed}");
}

#[test]
fn the_count_runs() {
    let runs = |arguments: &[&str]| {
        let run = Command::new(env!("CARGO_BIN_EXE_count")).args(arguments).output().unwrap();
        assert!(run.status.success(), "{arguments:?}: {}", String::from_utf8_lossy(&run.stderr));
    };
    for kind in ["global", "begin", "local", "merge", "commit", "abort"] {
        runs(&["move", kind, "16"]);
        runs(&["preview", kind, "16"]);
    }
    for (call, kinds) in
        [("run", ["merges", "global"]), ("serialize", ["merges", "global"]), ("list_moves", ["local", "global"])]
    {
        for kind in kinds {
            runs(&[call, kind, "16", "16"]);
        }
    }
    for plant in PLANTS {
        runs(&["run_unattended", plant.name, "16", "16"]);
    }
}

// Catches an input for the program that is not of the sizes asked for, or is refused where it should not be.
#[test]
fn the_count_writes_inputs() {
    // A log with merges leaves room for what its begins add.
    for (kind, entries, last) in [("merges", 24, "15 0 "), ("global", 32, "15 0 "), ("refused", 32, "0 5 ")] {
        let run = Command::new(env!("CARGO_BIN_EXE_count")).args(["input", kind, "32", "16"]).output().unwrap();
        assert!(run.status.success(), "{kind}: {}", String::from_utf8_lossy(&run.stderr));
        let text = output(MODEL, &run.stdout);
        assert!(text.starts_with(&format!("moves 16 entries {entries} next 1\n")), "{kind}: {text}");
        assert!(text.lines().last().unwrap().starts_with(last), "{kind}: {text}");
    }
}
