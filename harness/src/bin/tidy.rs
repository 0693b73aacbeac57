//! Prints what each rule of `tidy` finds in this repository, or in the one at the path given.
use std::env;
use std::path::PathBuf;

use harness::tidy::{Tree, RULES};

fn main() {
    let root = env::args_os().nth(1).map_or(PathBuf::from(harness::ROOT), PathBuf::from);
    let tree = Tree::read(&root);
    let found = RULES.map(|rule| (rule.name, rule.says, (rule.find)(&tree)));
    for (name, says, findings) in &found {
        println!("{name}: {says}: {}", findings.len());
        for finding in findings {
            println!("  {finding}");
        }
    }
    println!();
    for (name, _, findings) in &found {
        println!("{:>4}  {name}", findings.len());
    }
}
