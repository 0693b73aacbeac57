//! The rules of `harness::tidy` on this repository, a test for each. That each finds a fault is tested
//! beside it.
use std::path::Path;

use harness::tidy::{rule, Tree, RULES};
use harness::ROOT;

fn holds(name: &str) {
    let rule = rule(name);
    let findings = (rule.find)(&Tree::read(Path::new(ROOT)));
    let lines: Vec<String> = findings.iter().map(|finding| format!("{finding}\n")).collect();
    assert!(lines.is_empty(), "{}, but:\n{}", rule.says, lines.concat());
}

#[test]
fn every_law_is_cited() {
    holds("cited");
}

#[test]
fn theorems_for_readers_are_there() {
    holds("theorems");
}

#[test]
fn a_name_is_declared_once() {
    holds("names");
}

#[test]
fn a_law_has_its_own_name() {
    holds("module names");
}

#[test]
fn a_statement_is_proved_once() {
    holds("statements");
}

#[test]
fn functions_are_short() {
    holds("functions");
}

#[test]
fn lines_are_short() {
    holds("columns");
}

#[test]
fn lines_of_proofs_are_short() {
    holds("proof columns");
}

#[test]
fn code_names_fields() {
    holds("fields");
}

#[test]
fn definitions_name_fields() {
    holds("spec fields");
}

#[test]
fn files_say_what_they_hold() {
    holds("heads");
}

#[test]
fn what_is_brought_in_is_used() {
    holds("uses");
}

#[test]
fn edits_change_one_place() {
    holds("edits");
}

#[test]
fn the_page_of_edits_has_them() {
    holds("edits listed");
}

#[test]
fn the_architecture_has_the_crates() {
    holds("crates");
}

#[test]
fn crates_stand_in_layers() {
    holds("layers");
}

#[test]
fn pages_name_what_is_there() {
    holds("pages");
}

#[test]
fn nothing_points_outside() {
    holds("outside");
}

// Catches a rule that no test asks.
#[test]
fn every_rule_has_its_test() {
    let own = Tree::read(Path::new(ROOT));
    let own = &own.file("harness/tests/tidy.rs").unwrap().text;
    for rule in RULES {
        assert!(own.contains(&format!("holds(\"{}\");", rule.name)), "{}", rule.name);
    }
}
